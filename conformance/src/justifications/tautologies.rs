//! Random tautologies, for refine steps: "F implies G", by no log row, condition or obligation, and
//! with no label left open. By a slip one of these comes in.

use super::*;

/// What is supposed, F, and a step to which it leads: at last that of "F implies G".
pub(super) type Derived = (u16, u16);

impl Maker<'_> {
    /// "F implies" this policy: F, and the step that gives the implication. By a slip it is proved
    /// by more than logic, or is something else.
    pub(super) fn refinement(&mut self, policy: u16) -> Option<Derived> {
        if self.slips(Slip::Kind) {
            let (from, other) = (self.policy(1)?, self.policy(1)?);
            return Some((from, self.prove(other)?));
        }
        if !self.slips(Slip::Grounds) {
            return self.tautology(policy);
        }
        let (from, shown) = match self.random.below(4) {
            0 => return self.proved_anyhow(policy),
            1 => return self.supposed(policy),
            _ => self.tautology(policy)?,
        };
        let implication = self.book.pair(5, from, policy)?;
        let step = match self.random.one_in(2) {
            true => self.met(implication, shown)?,
            false => self.beside_what_is_outside(implication, shown)?,
        };
        Some((from, step))
    }

    /// An implication proved like any other formula, by whatever there is.
    fn proved_anyhow(&mut self, policy: u16) -> Option<Derived> {
        let from = self.helper()?;
        let implication = self.book.pair(5, from, policy)?;
        Some((from, self.prove(implication)?))
    }

    /// An implication that is only supposed.
    fn supposed(&mut self, policy: u16) -> Option<Derived> {
        let from = self.policy(1)?;
        let implication = self.book.pair(5, from, policy)?;
        Some((from, self.suppose(implication)?))
    }

    fn suppose(&mut self, formula: u16) -> Option<u16> {
        let label = self.label(0, formula);
        self.step(SUPPOSE, formula, label, &[])
    }

    /// The formula of this step once more: a duty is put before it, which an obligation or a label
    /// meets.
    fn met(&mut self, formula: u16, shown: u16) -> Option<u16> {
        let (mark, action) = (1 + self.random.below(2) as u16, self.ground_action()?);
        let demand = self.book.pair(mark as u8 + 5, action, formula)?;
        let label = self.label(mark, action);
        let demanded = self.step(OBLIGES_FROM_LABEL, demand, label, &[shown])?;
        if self.random.one_in(2) {
            return self.step(BY_LABEL, formula, label, &[demanded]);
        }
        self.case.obligations.push(Obligation::new(mark, action));
        let obligation = self.case.obligations.len() as u16 - 1;
        self.step(BY_OBLIGATION, formula, obligation, &[demanded])
    }

    /// The formula of this step once more, from it and something that is logged, certified, done or
    /// supposed.
    fn beside_what_is_outside(&mut self, formula: u16, shown: u16) -> Option<u16> {
        let (outside, step) = self.from_outside()?;
        let both = self.book.pair(3, formula, outside)?;
        let joined = self.step(AND, both, ABSENT, &[shown, step])?;
        self.step(LEFT, formula, ABSENT, &[joined])
    }

    /// A formula that holds by one log row, condition, obligation or label.
    fn from_outside(&mut self) -> Option<(u16, u16)> {
        let agent = self.case.agent;
        let policy = self.book.policy(self.random, 0, &[])?;
        let policy = self.book.grounded(self.random, policy)?;
        match self.random.below(7) {
            0 | 1 if self.book.kind(policy) == 0 => {
                let condition = entry(self.random, &mut self.case.conditions, policy);
                Some((policy, self.step(CONDITION, policy, condition, &[])?))
            }
            2 => {
                let said = self.book.says(1, policy, agent)?;
                let told = self.book.add(8, 0, [1, policy, agent])?;
                Some((said, self.seen(said, told)?))
            }
            0 | 1 | 3 => Some((policy, self.suppose(policy)?)),
            _ => {
                let (from, shown) = self.tautology(policy)?;
                let implication = self.book.pair(5, from, policy)?;
                Some((implication, self.met(implication, shown)?))
            }
        }
    }

    /// "F implies" this policy, a tautology.
    fn tautology(&mut self, policy: u16) -> Option<Derived> {
        let label = self.case.labels.len() as u16;
        self.case.labels.push((0, ABSENT));
        let levels = self.random.below(5);
        let (from, step) = self.from_label(policy, label, levels)?;
        self.case.labels[label as usize].1 = from;
        let implication = self.book.pair(5, from, policy)?;
        Some((from, self.step(IMPLIES_FROM_LABEL, implication, label, &[step])?))
    }

    /// A step that gives the goal from what this label, and no other, supposes: something from which
    /// the goal follows in up to so many levels.
    fn from_label(&mut self, goal: u16, label: u16, levels: usize) -> Option<Derived> {
        if levels == 0 || self.book.nodes(goal) > 24 {
            return Some((goal, self.step(SUPPOSE, goal, label, &[])?));
        }
        let ways = self.ways_to(goal);
        let (rule, above, argument) = match self.random.pick(&ways) {
            IMPLIED => return self.implied_by_tautology(goal, label, levels - 1),
            REFINE => return self.refined_again(goal, label, levels - 1),
            AND => return self.both_sides(goal, label),
            FOR_ALL => return self.for_all_again(goal, label, levels - 1),
            IMPLIES_FROM_LABEL => return self.under_label(goal, label, levels - 1),
            INSTANCE => {
                let (general, argument) = self.general(goal)?;
                (INSTANCE, general, argument)
            }
            rule => (rule, self.premise_of(rule, goal)?, ABSENT),
        };
        let (from, premise) = self.from_label(above, label, levels - 1)?;
        Some((from, self.step(rule, goal, argument, &[premise])?))
    }

    /// The rules that can give this formula without citing; those made for its kind weigh more. Rule
    /// 9 stands for rule 11 too.
    fn ways_to(&self, goal: u16) -> Vec<u16> {
        let mut ways = vec![LEFT, RIGHT, SAYS, INSTANCE, IMPLIED];
        let of_one = self.is_ownable(goal) && self.data_in(goal).len() == 1;
        let own: &[u16] = match self.book.kind(goal) {
            2 if self.book.fields(goal)[0] != self.case.agent => &[],
            2 if of_one => &[OWNER, REFINE],
            2 => &[REFINE],
            3 => &[AND],
            4 => &[FOR_ALL],
            5..=7 => &[IMPLIES_FROM_LABEL],
            _ => &[],
        };
        ways.extend(own.repeat(4));
        ways
    }

    /// The one premise from which a rule without an argument gives the goal.
    fn premise_of(&mut self, rule: u16, goal: u16) -> Option<u16> {
        let agent = self.case.agent;
        match rule {
            SAYS => {
                let by = name(self.random, AGENTS);
                self.book.says(by, goal, agent)
            }
            OWNER => {
                let data = self.data_in(goal).first().copied()?;
                self.book.pair(1, agent, data)
            }
            _ => {
                let other = self.policy(1)?;
                let (left, right) = if rule == LEFT { (goal, other) } else { (other, goal) };
                self.book.pair(3, left, right)
            }
        }
    }

    /// By "T implies" the goal, T a tautology of its own.
    fn implied_by_tautology(&mut self, goal: u16, label: u16, levels: usize) -> Option<Derived> {
        let policy = self.policy(1)?;
        let (of, shown) = self.tautology(policy)?;
        let shown_formula = self.book.pair(5, of, policy)?;
        let implication = self.book.pair(5, shown_formula, goal)?;
        let (from, premise) = self.from_label(implication, label, levels)?;
        Some((from, self.step(IMPLIED, goal, ABSENT, &[premise, shown])?))
    }

    /// "Agent says G to Z" from "agent says F to Z", by a tautology of its own.
    fn refined_again(&mut self, goal: u16, label: u16, levels: usize) -> Option<Derived> {
        let [agent, policy, z] = self.book.fields(goal);
        let (of, shown) = self.tautology(policy)?;
        let said = self.book.says(agent, of, z)?;
        let (from, premise) = self.from_label(said, label, levels)?;
        Some((from, self.step(REFINE, goal, ABSENT, &[shown, premise])?))
    }

    /// "F and G" from its left and its right: one label is open in two premises.
    fn both_sides(&mut self, goal: u16, label: u16) -> Option<Derived> {
        let [left, right, _] = self.book.fields(goal);
        let mut premises = Vec::new();
        for (rule, side) in [(LEFT, left), (RIGHT, right)] {
            let supposed = self.step(SUPPOSE, goal, label, &[])?;
            premises.push(self.step(rule, side, ABSENT, &[supposed])?);
        }
        Some((goal, self.step(AND, goal, ABSENT, &premises)?))
    }

    /// "For all" by way of its instance for any one.
    fn for_all_again(&mut self, goal: u16, label: u16, levels: usize) -> Option<Derived> {
        let sort = self.book.code(goal);
        let mut free = (2..32).map(|index| parameter(sort, index));
        let any = free.find(|any| !self.book.mentions(goal, *any))?;
        let body = self.book.instance(goal, any)?;
        let (from, premise) = self.from_label(goal, label, levels)?;
        let instance = self.step(INSTANCE, body, any, &[premise])?;
        Some((from, self.step(FOR_ALL, goal, any, &[instance])?))
    }

    /// An implication or a demand: what it has on the right, under a label of its own, which is used
    /// or not.
    fn under_label(&mut self, goal: u16, label: u16, levels: usize) -> Option<Derived> {
        let [left, right, _] = self.book.fields(goal);
        let (rule, mark) = closing(self.book.kind(goal));
        let own = self.label(mark, left);
        let (from, premise) = match self.random.one_in(2) {
            true => self.from_label(right, label, levels)?,
            false => {
                let (from, premise) = self.from_label(goal, label, levels)?;
                let used = match mark {
                    0 => {
                        let supposed = self.step(SUPPOSE, left, own, &[])?;
                        self.step(IMPLIED, right, ABSENT, &[premise, supposed])?
                    }
                    _ => self.step(BY_LABEL, right, own, &[premise])?,
                };
                (from, used)
            }
        };
        Some((from, self.step(rule, goal, own, &[premise])?))
    }
}
