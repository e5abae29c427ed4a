//! The steps of a justification as a tree: premises stand below the step that they serve.

/// A line of the tree.
#[derive(Debug, PartialEq, Eq)]
pub struct Line {
    pub depth: usize,
    pub step: u16,
    pub kind: Kind,
}

#[derive(Debug, PartialEq, Eq)]
pub enum Kind {
    /// The step itself; its premises follow.
    Step,
    /// A premise that stands further up already.
    Again,
    /// A premise that is no earlier step.
    NotEarlier,
}

/// The tree of the last step, and the trees of the steps that it does not rest on, the highest
/// first. Every step stands once, whatever the premises are.
pub fn trees(premises: &[Vec<u16>]) -> (Vec<Line>, Vec<Line>) {
    let mut shown = vec![false; premises.len()];
    let mut main = Vec::new();
    let mut rest = Vec::new();
    for step in (0..premises.len()).rev() {
        let lines = if main.is_empty() { &mut main } else { &mut rest };
        if !shown[step] {
            visit(step, 0, premises, &mut shown, lines);
        }
    }
    (main, rest)
}

/// Premises that are followed are earlier steps, so this ends.
fn visit(
    step: usize,
    depth: usize,
    premises: &[Vec<u16>],
    shown: &mut [bool],
    lines: &mut Vec<Line>,
) {
    shown[step] = true;
    lines.push(Line { depth, step: step as u16, kind: Kind::Step });
    for premise in &premises[step] {
        let number = *premise as usize;
        let kind = match number < step {
            true if !shown[number] => {
                visit(number, depth + 1, premises, shown, lines);
                continue;
            }
            true => Kind::Again,
            false => Kind::NotEarlier,
        };
        lines.push(Line { depth: depth + 1, step: *premise, kind });
    }
}
