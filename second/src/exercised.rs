//! What runs exercise: an observer that counts.

use crate::layout::Layout;
use crate::observer::{Event, Observer};
use crate::tree::{mark, Command, Element, Mode, Relation, Rule, Test, TestKind, VariableType};

/// The least length of a label that old tables can't hold, and how many such lengths there are.
pub const FIRST_LONG: usize = Layout::FOUR.atoms + 1;
pub const LONG: usize = Layout::BASE.atoms - Layout::FOUR.atoms;

#[derive(Clone, Debug, Default, PartialEq, Eq)]
pub struct Exercised {
    pub steps: u64,
    pub applications: u64,
    /// Guarded commands entered: those that undo their guard's changes, and those that keep a successful guard's.
    pub ifs: u64,
    pub tries: u64,
    /// Guards given back after a rule was applied in them.
    pub guards_undone: u64,
    /// Failing loop bodies given back after a rule was applied in them.
    pub bodies_undone: u64,
    pub breaks: u64,
    /// Calls of procedures entered, those entered inside of another, and those whose procedure failed.
    pub calls: u64,
    pub calls_in_calls: u64,
    pub calls_failed: u64,
    /// New nodes and right edges that took a slot which the same application had freed.
    pub slots_reused: u64,
    /// Placements that keep rules 1 to 4 and break the dangling condition.
    pub dangling_refusals: u64,
    /// Tests that held, negation included.
    pub tests_true: TestCounts,
    /// Tests that did not hold, negation included.
    pub tests_false: TestCounts,
    pub negated_tests: u64,
    /// In-degree tests of nodes with loops, by the number from 0 that they ask for: plain ones, then negated ones.
    pub in_degree_at_loops: [u64; 3],
    pub not_in_degree_at_loops: [u64; 3],
    /// Elements of right labels that were evaluated.
    pub elements: ElementCounts,
    /// Left nodes and edges of mark any in matches.
    pub any_marks_matched: u64,
    /// Left roots in matches.
    pub roots_matched: u64,
    /// Matches of rules that have a mode, by its byte.
    pub modes_matched: [u64; 2],
    /// Left nodes in matches that are unrooted and on a root.
    pub unrooted_on_roots: u64,
    /// Those of them outside the interface.
    pub unrooted_roots_deleted: u64,
    /// Flags of roots that an application keeps, since the rule has the node unrooted on both sides.
    pub root_flags_kept: u64,
    /// Left labels in matches by their elements, and values of list variables by their atoms, both from `FIRST_LONG` on.
    pub left_elements: [u64; LONG],
    pub list_atoms: [u64; LONG],
    /// Values of variables of either type, and right labels that were evaluated, by their atoms where these are fewer than `FIRST_LONG`.
    pub short_values: [u64; FIRST_LONG],
    pub short_label_atoms: [u64; FIRST_LONG],
    /// Right labels that were evaluated by their elements from `FIRST_LONG` on, and by their atoms from there to one too many.
    pub right_elements: [u64; LONG],
    pub label_atoms: [u64; LONG + 1],
    /// For each guard and body that has begun and not ended, the applications before it.
    applications_before: Vec<u64>,
    /// The calls that have begun and not ended.
    calls_underway: u64,
}

#[derive(Clone, Debug, Default, PartialEq, Eq)]
pub struct TestCounts {
    pub edge: u64,
    pub in_degree: u64,
    pub out_degree: u64,
    pub equal: u64,
    pub less: u64,
}

#[derive(Clone, Debug, Default, PartialEq, Eq)]
pub struct ElementCounts {
    pub constant: u64,
    pub int_variable: u64,
    pub list_variable: u64,
    pub sum: u64,
    pub difference: u64,
}

impl Observer for Exercised {
    fn sees(&mut self, event: Event) {
        match event {
            Event::Entered(command) => self.entered(command),
            Event::Attempted => self.applications_before.push(self.applications),
            Event::Kept => drop(self.applications_before.pop()),
            Event::Returned { failed } => self.returned(failed),
            Event::GuardUndone => self.guards_undone += u64::from(self.applied_in_last()),
            Event::BodyUndone => self.bodies_undone += u64::from(self.applied_in_last()),
            Event::Dangled => self.dangling_refusals += 1,
            Event::Tested(tests, held, at_loop) => self.tested(tests, held, at_loop),
            Event::Matched(rule, on_roots) => self.matched(rule, on_roots),
            Event::Bound(values) => {
                let bound = values.iter().flatten();
                bound.for_each(|value| {
                    count_short(&mut self.short_values, value.len());
                    count_long(&mut self.list_atoms, value.len());
                });
            }
            Event::LabelMade { elements, atoms } => {
                count_long(&mut self.right_elements, elements);
                count_short(&mut self.short_label_atoms, atoms);
                count_long(&mut self.label_atoms, atoms);
            }
            Event::Evaluated(rule, element) => {
                *self.elements.of(element, &rule.variables) += 1;
            }
            Event::RootFlagKept(root) => self.root_flags_kept += u64::from(root),
            Event::Placed(slot, left) => self.slots_reused += u64::from(left.contains(&slot)),
            Event::Applied(_) => self.applications += 1,
        }
    }
}

impl Exercised {
    fn entered(&mut self, command: &Command) {
        self.steps += 1;
        match command {
            Command::Guarded { keep: false, .. } => self.ifs += 1,
            Command::Guarded { keep: true, .. } => self.tries += 1,
            Command::Break => self.breaks += 1,
            Command::Procedure(_) => self.called(),
            _ => {}
        }
    }

    fn called(&mut self) {
        self.calls += 1;
        self.calls_in_calls += u64::from(self.calls_underway > 0);
        self.calls_underway += 1;
    }

    fn returned(&mut self, failed: bool) {
        self.calls_failed += u64::from(failed);
        self.calls_underway -= 1;
    }

    /// Whether a rule was applied in the guard or body that began last, which has ended.
    fn applied_in_last(&mut self) -> bool {
        let before = self.applications_before.pop();
        before.is_some_and(|before| self.applications > before)
    }

    fn tested(&mut self, tests: &[Test], held: &[bool], at_loop: &[bool]) {
        for ((test, holds), at_loop) in tests.iter().zip(held).zip(at_loop) {
            let counts = match holds {
                true => &mut self.tests_true,
                false => &mut self.tests_false,
            };
            *counts.of(&test.kind) += 1;
            self.negated_tests += u64::from(test.negated);
            if *at_loop {
                self.tested_at_loop(test);
            }
        }
    }

    fn tested_at_loop(&mut self, test: &Test) {
        let counts = match test.negated {
            true => &mut self.not_in_degree_at_loops,
            false => &mut self.in_degree_at_loops,
        };
        if let TestKind::InDegree(_, number) = test.kind {
            if let Some(count) = counts.get_mut(usize::from(number)) {
                *count += 1;
            }
        }
    }

    fn matched(&mut self, rule: &Rule, on_roots: &[bool]) {
        let any_nodes = rule.left.nodes.iter().filter(|n| n.mark == mark::ANY);
        let any_edges = rule.left.edges.iter().filter(|e| e.mark == mark::ANY);
        let roots = rule.left.nodes.iter().filter(|n| n.root);
        self.any_marks_matched += (any_nodes.count() + any_edges.count()) as u64;
        self.roots_matched += roots.count() as u64;
        match rule.mode {
            Some(Mode::Reflecting) => self.modes_matched[0] += 1,
            Some(Mode::Preserving) => self.modes_matched[1] += 1,
            None => {}
        }
        let labels = rule.left.nodes.iter().map(|node| &node.label);
        for label in labels.chain(rule.left.edges.iter().map(|edge| &edge.label)) {
            count_long(&mut self.left_elements, label.len());
        }
        let nodes = rule.left.nodes.iter().zip(on_roots).enumerate();
        for (number, _) in nodes.filter(|(_, (left, on_root))| !left.root && **on_root) {
            self.unrooted_on_roots += 1;
            self.unrooted_roots_deleted += u64::from(number >= usize::from(rule.interface));
        }
    }
}

/// Adds 1 to the count of this length, where it is a short one.
fn count_short(counts: &mut [u64; FIRST_LONG], length: usize) {
    if let Some(count) = counts.get_mut(length) {
        *count += 1;
    }
}

/// Adds 1 to the count of this length, where it is a long one that is counted.
pub fn count_long(counts: &mut [u64], length: usize) {
    let place = length.checked_sub(FIRST_LONG);
    if let Some(count) = place.and_then(|place| counts.get_mut(place)) {
        *count += 1;
    }
}

impl TestCounts {
    fn of(&mut self, kind: &TestKind) -> &mut u64 {
        match kind {
            TestKind::Edge(..) => &mut self.edge,
            TestKind::InDegree(..) => &mut self.in_degree,
            TestKind::OutDegree(..) => &mut self.out_degree,
            TestKind::Relation(Relation::Equal, ..) => &mut self.equal,
            TestKind::Relation(Relation::Less, ..) => &mut self.less,
        }
    }
}

impl ElementCounts {
    fn of(&mut self, element: &Element, variables: &[VariableType]) -> &mut u64 {
        match element {
            Element::Constant(_) => &mut self.constant,
            Element::Variable(number) => match variables[usize::from(*number)] {
                VariableType::Int => &mut self.int_variable,
                VariableType::List => &mut self.list_variable,
            },
            Element::Sum(..) => &mut self.sum,
            Element::Difference(..) => &mut self.difference,
        }
    }
}

#[cfg(test)]
mod tests {
    use super::*;
    use crate::host::Host;

    fn seen(events: &[Event]) -> Exercised {
        let mut exercised = Exercised::default();
        events.iter().for_each(|event| exercised.sees(*event));
        exercised
    }

    #[test]
    fn what_is_undone_counts_where_a_rule_was_applied_in_it() {
        use Event::{Applied, Attempted, BodyUndone, GuardUndone, Kept};
        let left = Host::default();
        let applied = Applied(&left);
        let idle = seen(&[applied, Attempted, GuardUndone, Attempted, BodyUndone]);
        assert_eq!((idle.guards_undone, idle.bodies_undone), (0, 0));
        let inner = seen(&[Attempted, Attempted, applied, BodyUndone, GuardUndone]);
        assert_eq!((inner.guards_undone, inner.bodies_undone), (1, 1));
        let outer = seen(&[
            Attempted,
            applied,
            Attempted,
            Kept,
            Attempted,
            BodyUndone,
            GuardUndone,
        ]);
        assert_eq!((outer.guards_undone, outer.bodies_undone), (1, 0));
    }

    #[test]
    fn guarded_commands_count_by_whether_they_keep() {
        use crate::build::{if_command, try_command};
        use Command::Skip;
        let (undoing, keeping) = (if_command(Skip, Skip, Skip), try_command(Skip, Skip, Skip));
        let entered = [&undoing, &keeping, &keeping, &Skip].map(Event::Entered);
        let exercised = seen(&entered);
        assert_eq!((exercised.ifs, exercised.tries), (1, 2));
        assert_eq!((exercised.steps, exercised.breaks), (4, 0));
    }

    #[test]
    fn calls_count_inside_of_others_and_where_they_fail() {
        let call = Command::Procedure(0);
        let entered = Event::Entered(&call);
        let returned = |failed| Event::Returned { failed };
        let one_behind_the_other = [entered, returned(false), entered, returned(true)];
        let exercised = seen(&one_behind_the_other);
        assert_eq!((exercised.calls, exercised.calls_in_calls), (2, 0));
        assert_eq!((exercised.steps, exercised.calls_failed), (2, 1));
        let inside = [entered, entered, returned(true), entered, returned(false)];
        let exercised = seen(&inside);
        assert_eq!((exercised.calls, exercised.calls_in_calls), (3, 2));
        assert_eq!(exercised.calls_failed, 1);
    }

    #[test]
    fn modes_and_unrooted_nodes_on_roots_count_in_matches() {
        use crate::build::{node, node_rule, preserving, root, with_mode};
        let left = [root(0, &[]), node(0, &[]), node(0, &[])];
        let rule = preserving(node_rule(&left, &left[..2], 2));
        let reflecting = with_mode(Some(Mode::Reflecting), rule.clone());
        let without = with_mode(None, rule.clone());
        let exercised = seen(&[
            Event::Matched(&rule, &[true, true, true]),
            Event::Matched(&rule, &[true, true, false]),
            Event::Matched(&reflecting, &[true, false, false]),
            Event::Matched(&without, &[true, false, false]),
            Event::RootFlagKept(true),
            Event::RootFlagKept(false),
        ]);
        assert_eq!(exercised.modes_matched, [1, 2]);
        assert_eq!(exercised.unrooted_on_roots, 3);
        assert_eq!(exercised.unrooted_roots_deleted, 1);
        assert_eq!((exercised.roots_matched, exercised.root_flags_kept), (4, 1));
    }

    #[test]
    fn long_labels_count_by_their_length() {
        use crate::build::{edge, node, rule};
        let label = |elements: usize| vec![Element::Constant(0); elements];
        let left = (
            vec![node(0, &label(4)), node(0, &label(5))],
            vec![edge(0, 0, 1, &label(8))],
        );
        let rule = rule(left, (vec![], vec![]), 0);
        let atoms = [0; 7];
        let made = |elements, atoms| Event::LabelMade { elements, atoms };
        let exercised = seen(&[
            Event::Matched(&rule, &[false, false]),
            Event::Bound(&[None, Some(&atoms[..4]), Some(&atoms[..6]), Some(&atoms)]),
            made(2, 9),
            made(8, 8),
            made(5, 10),
            made(4, 4),
        ]);
        assert_eq!(exercised.left_elements, [1, 0, 0, 1]);
        assert_eq!(exercised.list_atoms, [0, 1, 1, 0]);
        assert_eq!(exercised.right_elements, [1, 0, 0, 1]);
        assert_eq!(exercised.label_atoms, [0, 0, 0, 1, 1]);
        assert_eq!(exercised.short_values, [0, 0, 0, 0, 1]);
        assert_eq!(exercised.short_label_atoms, [0, 0, 0, 0, 1]);
    }

    #[test]
    fn a_slot_counts_as_reused_where_a_left_item_had_it() {
        let exercised = seen(&[
            Event::Placed(3, &[1, 3]),
            Event::Placed(2, &[1, 3]),
            Event::Placed(0, &[]),
        ]);
        assert_eq!(exercised.slots_reused, 1);
    }
}
