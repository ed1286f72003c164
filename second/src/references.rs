//! The *references* of a program: one function for each requirement of document 01's paragraph on them.
//! Rests on the tree alone, which has the right form already.

use crate::tree::*;

/// All requirements, rule by rule, then those of the commands, procedure by procedure and the main one.
pub fn check(program: &Program) -> Result<(), String> {
    for (number, rule) in program.rules.iter().enumerate() {
        check_rule(rule).map_err(|reason| format!("rule {number}: {reason}"))?;
    }
    for (number, body) in program.procedures.iter().enumerate() {
        check_command(body, program).map_err(|reason| format!("procedure {number}: {reason}"))?;
    }
    check_command(&program.main, program)
}

/// The requirements of one rule.
pub fn check_rule(rule: &Rule) -> Result<(), String> {
    named_variables_exist(rule)?;
    ends_of_edges_exist(rule)?;
    nodes_of_tests_exist(rule)?;
    interface_is_at_most_both_node_counts(rule)?;
    left_labels_have_no_sum_or_difference(rule)?;
    left_labels_have_at_most_one_list_variable(rule)?;
    operands_are_int(rule)?;
    variables_of_right_side_and_tests_occur_on_the_left(rule)?;
    no_right_edge_is_any(rule)?;
    right_any_stands_on_interface_nodes_that_are_any_on_the_left(rule)
}

/// The requirements of a command and of those inside of it.
fn check_command(command: &Command, program: &Program) -> Result<(), String> {
    named_rules_exist(command, program.rules.len())?;
    named_procedure_exists(command, program.procedures.len())?;
    let mut parts = command.parts().into_iter();
    parts.try_for_each(|part| check_command(part, program))
}

/// Named rules exist.
pub fn named_rules_exist(command: &Command, rules: usize) -> Result<(), String> {
    let Command::RuleSet(numbers) = command else {
        return Ok(());
    };
    match numbers.iter().find(|n| usize::from(**n) >= rules) {
        Some(number) => Err(format!(
            "a rule set names rule {number}, but there are {rules} rules"
        )),
        None => Ok(()),
    }
}

/// The procedure that a call names exists.
pub fn named_procedure_exists(command: &Command, procedures: usize) -> Result<(), String> {
    match command {
        Command::Procedure(number) if usize::from(*number) >= procedures => Err(format!(
            "a call names procedure {number}, but there are {procedures} procedures"
        )),
        _ => Ok(()),
    }
}

/// Named variables exist, on both sides and in the tests.
pub fn named_variables_exist(rule: &Rule) -> Result<(), String> {
    let declared = rule.variables.len();
    let named = variables_of_graph(&rule.left)
        .into_iter()
        .chain(variables_of_right_side_and_tests(rule));
    for variable in named {
        if usize::from(variable) >= declared {
            return Err(format!(
                "variable {variable} is named, but {declared} are declared"
            ));
        }
    }
    Ok(())
}

/// Named nodes exist: the ends of edges, each in its own side.
pub fn ends_of_edges_exist(rule: &Rule) -> Result<(), String> {
    for (side, graph) in [("left", &rule.left), ("right", &rule.right)] {
        for (number, edge) in graph.edges.iter().enumerate() {
            for (end, node) in [("source", edge.source), ("target", edge.target)] {
                if usize::from(node) >= graph.nodes.len() {
                    return Err(format!(
                        "the {end} of {side} edge {number} is node {node}, which does not exist"
                    ));
                }
            }
        }
    }
    Ok(())
}

/// Named nodes exist: tests name left nodes.
pub fn nodes_of_tests_exist(rule: &Rule) -> Result<(), String> {
    for (number, test) in rule.tests.iter().enumerate() {
        let named = match test.kind {
            TestKind::Edge(a, b) => vec![a, b],
            TestKind::InDegree(node, _) | TestKind::OutDegree(node, _) => vec![node],
            TestKind::Relation(..) => vec![],
        };
        for node in named {
            if usize::from(node) >= rule.left.nodes.len() {
                return Err(format!(
                    "test {number} names left node {node}, which does not exist"
                ));
            }
        }
    }
    Ok(())
}

/// k is at most both node counts.
pub fn interface_is_at_most_both_node_counts(rule: &Rule) -> Result<(), String> {
    let size = usize::from(rule.interface);
    for (side, graph) in [("left", &rule.left), ("right", &rule.right)] {
        if size > graph.nodes.len() {
            return Err(format!(
                "the interface has {size} nodes, the {side} side only {}",
                graph.nodes.len()
            ));
        }
    }
    Ok(())
}

/// A left label has no sum or difference.
pub fn left_labels_have_no_sum_or_difference(rule: &Rule) -> Result<(), String> {
    for label in labels(&rule.left) {
        for element in label {
            match element {
                Element::Sum(..) => return Err("a left label has a sum".to_string()),
                Element::Difference(..) => return Err("a left label has a difference".to_string()),
                Element::Constant(_) | Element::Variable(_) => {}
            }
        }
    }
    Ok(())
}

/// A left label has at most one occurrence of a list variable.
pub fn left_labels_have_at_most_one_list_variable(rule: &Rule) -> Result<(), String> {
    for label in labels(&rule.left) {
        let lists = label.iter().filter(|element| is_list(rule, element));
        if lists.count() > 1 {
            return Err("a left label has more than one list variable".to_string());
        }
    }
    Ok(())
}

fn is_list(rule: &Rule, element: &Element) -> bool {
    match element {
        Element::Variable(number) => type_of(rule, *number) == Some(VariableType::List),
        _ => false,
    }
}

fn type_of(rule: &Rule, variable: u8) -> Option<VariableType> {
    rule.variables.get(usize::from(variable)).copied()
}

/// Operands are int: those of sums, differences and relation tests.
pub fn operands_are_int(rule: &Rule) -> Result<(), String> {
    for operand in operands(rule) {
        if let Operand::Variable(number) = operand {
            if type_of(rule, number) == Some(VariableType::List) {
                return Err(format!("the operand variable {number} is a list"));
            }
        }
    }
    Ok(())
}

/// Every variable of the right side or the tests occurs on the left.
pub fn variables_of_right_side_and_tests_occur_on_the_left(rule: &Rule) -> Result<(), String> {
    let left = variables_of_graph(&rule.left);
    for variable in variables_of_right_side_and_tests(rule) {
        if !left.contains(&variable) {
            return Err(format!(
                "variable {variable} of the right side or the tests does not occur on the left"
            ));
        }
    }
    Ok(())
}

/// Mark any on the right stands on no edge.
pub fn no_right_edge_is_any(rule: &Rule) -> Result<(), String> {
    match rule.right.edges.iter().any(|edge| edge.mark == mark::ANY) {
        true => Err("a right edge has mark any".to_string()),
        false => Ok(()),
    }
}

/// Mark any on the right stands only on an interface node that is any on the left.
pub fn right_any_stands_on_interface_nodes_that_are_any_on_the_left(
    rule: &Rule,
) -> Result<(), String> {
    for (number, node) in rule.right.nodes.iter().enumerate() {
        if node.mark != mark::ANY {
            continue;
        }
        if number >= usize::from(rule.interface) {
            return Err(format!(
                "right node {number} has mark any, but is not in the interface"
            ));
        }
        if rule.left.nodes.get(number).map(|left| left.mark) != Some(mark::ANY) {
            return Err(format!(
                "right node {number} has mark any, but its left node has not"
            ));
        }
    }
    Ok(())
}

fn labels(graph: &RuleGraph) -> Vec<&Vec<Element>> {
    let nodes = graph.nodes.iter().map(|node| &node.label);
    let edges = graph.edges.iter().map(|edge| &edge.label);
    nodes.chain(edges).collect()
}

fn variables_of_graph(graph: &RuleGraph) -> Vec<u8> {
    let elements = labels(graph).into_iter().flatten();
    elements.flat_map(variables_of_element).collect()
}

fn variables_of_element(element: &Element) -> Vec<u8> {
    match element {
        Element::Variable(number) => vec![*number],
        element => operands_of_element(element)
            .iter()
            .filter_map(variable_of_operand)
            .collect(),
    }
}

fn variable_of_operand(operand: &Operand) -> Option<u8> {
    match operand {
        Operand::Variable(number) => Some(*number),
        Operand::Constant(_) => None,
    }
}

fn variables_of_right_side_and_tests(rule: &Rule) -> Vec<u8> {
    let mut variables = variables_of_graph(&rule.right);
    let operands = rule.tests.iter().flat_map(operands_of_test);
    variables.extend(operands.filter_map(|operand| variable_of_operand(&operand)));
    variables
}

/// Every operand of the rule: in the labels of both sides and in the tests.
fn operands(rule: &Rule) -> Vec<Operand> {
    let labels = labels(&rule.left).into_iter().chain(labels(&rule.right));
    let mut operands: Vec<Operand> = labels.flatten().flat_map(operands_of_element).collect();
    operands.extend(rule.tests.iter().flat_map(operands_of_test));
    operands
}

fn operands_of_element(element: &Element) -> Vec<Operand> {
    match element {
        Element::Sum(a, b) | Element::Difference(a, b) => vec![*a, *b],
        Element::Constant(_) | Element::Variable(_) => vec![],
    }
}

fn operands_of_test(test: &Test) -> Vec<Operand> {
    match test.kind {
        TestKind::Relation(_, a, b) => vec![a, b],
        _ => vec![],
    }
}
