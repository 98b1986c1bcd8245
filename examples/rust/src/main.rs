//! The role keeper from Rust: from the first role to a yes, and to a yes by the roles that a seat has switched on.

use keeper::{Answer, Call, Keeper, Refusal, Set};

/// Says whether a call is accepted, and otherwise by which refusal it is not.
fn tell(what: &str, answer: Result<Answer, Refusal>) {
    match answer {
        Ok(_) => println!("{what}: accepted"),
        Err(refusal) => {
            let (number, place) = refusal.parts();
            println!("{what}: refused with {number}, place {place}");
        }
    }
}

/// Says what an ask is answered.
fn tell_ask(what: &str, yes: bool) {
    println!("{what}? {}", if yes { "yes" } else { "no" });
}

/// Adds a role, gives it to a seat, asks, and switches the role on.
fn main() {
    let mut keeper = Keeper::fresh();
    tell("a fresh state", Ok(Answer::Accepted));
    let effective = Set::of(&[0, 1]);
    let added = keeper.call(&Call::AddByPrivileges { role: 2, effective });
    tell("role 2 with privileges 0 and 1", added);
    let assigned = keeper.call(&Call::Assign { seat: 5, role: 2 });
    tell("seat 5 gets role 2", assigned);
    let absent = keeper.call(&Call::Assign { seat: 5, role: 3 });
    tell("seat 5 gets role 3, which is absent", absent);
    tell_ask("may seat 5 use privilege 1", keeper.may(5, 1));
    tell_ask("may seat 5 use privilege 2", keeper.may(5, 2));
    let by_active = "may seat 5 use privilege 1 by its active roles";
    tell_ask(by_active, keeper.may_active(5, 1));
    let activated = keeper.call(&Call::Activate { seat: 5, role: 2 });
    tell("seat 5 switches on role 2", activated);
    tell_ask(by_active, keeper.may_active(5, 1));
}
