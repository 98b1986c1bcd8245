//! What an image holds, as text and for Graphviz.

use crate::why::list;
use keeper::{Keeper, Set, MAX_ROLE, MIN_ROLE, NUMBERS};

/// The roles present from MinRole through the ordinary ones to MaxRole.
fn roles(keeper: &Keeper) -> Vec<u8> {
    let mut roles = vec![MIN_ROLE];
    roles.extend(keeper.roles().members());
    roles.push(MAX_ROLE);
    roles
}

/// The name of a role.
fn name(role: u8) -> String {
    match role {
        MIN_ROLE => "role 0 (MinRole)".to_string(),
        MAX_ROLE => "role 1 (MaxRole)".to_string(),
        _ => format!("role {role}"),
    }
}

/// The seats with a role.
fn seats(keeper: &Keeper) -> Vec<u8> {
    (0..NUMBERS)
        .filter(|seat| !keeper.seat_roles(*seat).is_empty())
        .collect()
}

/// A count with its noun.
pub fn count(number: usize, noun: &str) -> String {
    match number {
        1 => format!("1 {noun}"),
        _ => format!("{number} {noun}s"),
    }
}

/// Roles with their sets, edges, conflicts and seats.
pub fn text(keeper: &Keeper) -> String {
    let mut said =
        count(keeper.roles().count() as usize, "role") + " besides MinRole and MaxRole\n";
    let names: Vec<String> = roles(keeper).into_iter().map(name).collect();
    let widest = names.iter().map(String::len).max().unwrap_or(0);
    for (role, name) in roles(keeper).into_iter().zip(names) {
        let (effective, direct) = (keeper.effective(role), keeper.direct(role));
        said += &format!("  {name:<widest$}  effective {effective}  direct {direct}\n");
    }
    let edges = keeper.edges();
    said += &(count(edges.len(), "edge") + ", from junior to senior\n");
    for (junior, senior) in edges {
        said += &format!("  {junior} to {senior}\n");
    }
    let conflicts = keeper.conflicts();
    said += &(count(conflicts.len(), "conflict") + "\n");
    for (low, high) in conflicts {
        said += &format!("  {low} and {high}\n");
    }
    let seats = seats(keeper);
    said += &(count(seats.len(), "seat") + " with roles\n");
    for seat in seats {
        let roles = list("role", keeper.seat_roles(seat).members());
        said += &format!(
            "  seat {seat} has {roles} and may use {}\n",
            keeper.seat_holds(seat)
        );
    }
    said
}

/// The graph for Graphviz, seniors above: a box for each role with its direct privileges, an oval for each seat.
pub fn dot(keeper: &Keeper) -> String {
    let mut said = "digraph roles {\n  rankdir=BT;\n  node [shape=box];\n".to_string();
    for role in roles(keeper) {
        let direct = keeper.direct(role);
        let set = if direct == Set::EMPTY {
            String::new()
        } else {
            format!("\\n{direct}")
        };
        said += &format!("  r{role} [label=\"{}{set}\"];\n", name(role));
    }
    for (junior, senior) in keeper.edges() {
        said += &format!("  r{junior} -> r{senior};\n");
    }
    for seat in seats(keeper) {
        said += &format!("  s{seat} [label=\"seat {seat}\", shape=oval];\n");
        for role in keeper.seat_roles(seat).members() {
            said += &format!("  s{seat} -> r{role} [style=dashed];\n");
        }
    }
    for (low, high) in keeper.conflicts() {
        said += &format!("  // privileges {low} and {high} are in conflict\n");
    }
    said + "}\n"
}
