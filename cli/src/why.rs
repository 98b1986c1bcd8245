//! Why a seat may use a privilege, and who may.

use keeper::{Keeper, NUMBERS};

/// Numbers with their noun, as 'role 2' or 'roles 2, 3 and 4'.
pub fn list(noun: &str, numbers: impl Iterator<Item = u8>) -> String {
    let numbers: Vec<String> = numbers.map(|number| number.to_string()).collect();
    match &numbers[..] {
        [] => format!("no {noun}"),
        [one] => format!("{noun} {one}"),
        [front @ .., last] => format!("{noun}s {} and {last}", front.join(", ")),
    }
}

/// The roles from this one down to one in which the privilege is direct, each an immediate junior of the one before.
fn steps(keeper: &Keeper, role: u8, privilege: u8) -> Vec<u8> {
    let mut way = vec![role];
    let mut role = role;
    while !keeper.direct(role).has(privilege) {
        let mut juniors = keeper.juniors(role).members();
        match juniors.find(|junior| keeper.effective(*junior).has(privilege)) {
            Some(junior) => role = junior,
            None => break,
        }
        way.push(role);
    }
    way
}

/// How a role comes to a privilege that it has.
pub fn way_down(keeper: &Keeper, role: u8, privilege: u8) -> String {
    let way = steps(keeper, role, privilege);
    match &way[1..] {
        [] => "directly".to_string(),
        [below @ ..] => {
            let below: Vec<String> = below.iter().map(|role| format!("role {role}")).collect();
            format!(
                "from {}, where it is direct",
                below.join(", which has it from ")
            )
        }
    }
}

/// The answer to an ask, with its reason.
pub fn ask(keeper: &Keeper, seat: u8, privilege: u8) -> (bool, String) {
    let roles = keeper.seat_roles(seat);
    if !keeper.may(seat.into(), privilege.into()) {
        let reason = match roles.is_empty() {
            true => format!("seat {seat} has no role"),
            false => format!(
                "seat {seat} has {}, without privilege {privilege}",
                list("role", roles.members())
            ),
        };
        return (false, format!("no: {reason}\n"));
    }
    let mut said = format!("yes: seat {seat} may use privilege {privilege}\n");
    for role in roles
        .members()
        .filter(|role| keeper.effective(*role).has(privilege))
    {
        said += &format!(
            "  it has role {role}, which has privilege {privilege} {}\n",
            way_down(keeper, role, privilege)
        );
    }
    (true, said)
}

/// The seats that may use a privilege, a line each.
pub fn who(keeper: &Keeper, privilege: u8) -> (bool, String) {
    let mut said = String::new();
    for seat in (0..NUMBERS).filter(|seat| keeper.may((*seat).into(), privilege.into())) {
        let roles = keeper.seat_roles(seat).members();
        let roles = roles.filter(|role| keeper.effective(*role).has(privilege));
        said += &format!("seat {seat} by {}\n", list("role", roles));
    }
    match said.is_empty() {
        true => (false, format!("no seat may use privilege {privilege}\n")),
        false => (true, said),
    }
}
