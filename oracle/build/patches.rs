//! Every difference between the published search and the two builds, each an exact text and what stands in its place.

pub struct Patch {
    pub name: &'static str,
    pub old: &'static str,
    pub new: &'static str,
}

const fn patch(name: &'static str, old: &'static str, new: &'static str) -> Patch {
    Patch { name, old, new }
}

/// For both builds: they change nothing that the search does.
pub const OBSERVATIONS: &[Patch] = &[
    // Our `limits_reached` asks this one and notes which limit was met.
    patch(
        "first-limit",
        "fn limits_reached(&self",
        "fn limits_reached_as_published(&self",
    ),
];

/// For the mended build.
pub const MENDS: &[Patch] = &[
    patch(
        "M1-given-solved",
        "return Ok(());\n        }\n\n        let impact =",
        "return self.checked();\n        }\n\n        let impact =",
    ),
    patch(
        "M1-first-probing",
        "return Ok(());\n        }\n\n        self.start_time =",
        "return self.checked();\n        }\n\n        self.start_time =",
    ),
    patch(
        "M1-one-colour-left",
        "self.add_solution();\n                    warn!(\"The only",
        "if self.checked().is_err() { return Ok(false); }\n                    self.add_solution();\n                    warn!(\"The only",
    ),
    patch(
        "M1-after-dead-guess",
        "self.add_solution();\n                    warn!(\n                        \"The negation",
        "if self.checked().is_err() { return Ok(false); }\n                    self.add_solution();\n                    warn!(\n                        \"The negation",
    ),
    patch(
        "M1-guess",
        "self.add_solution();\n            return Ok(vec![]);",
        "self.checked()?;\n            self.add_solution();\n            return Ok(vec![]);",
    ),
    patch(
        "M2-probing-in-guess",
        "if self.limits_reached(depth) || self.board().is_solved_full() {",
        "if !self.store_if_solved() { return Ok(false); }\n                if self.limits_reached(depth) || self.board().is_solved_full() {",
    ),
    patch(
        "M3-guesses-run-out",
        "while let Some(direction) = directions.pop() {",
        "let mut not_dead = Vec::new();\n        while let Some(direction) = self.next_guess(&mut directions, &not_dead, depth) {",
    ),
    patch(
        "M3-not-dead",
        "let success = state_result?;",
        "let success = state_result?;\n            if success { not_dead.push(direction); }",
    ),
    patch(
        "M3-no-guesses",
        "if directions.is_empty() {\n                    Ok(true)",
        "if directions.is_empty() {\n                    self.search(directions, path)",
    ),
    patch(
        "M4-board-as-given",
        "pub fn run(&mut self)",
        "fn run_unrestored(&mut self)",
    ),
];
