//! Texts that are no frames.

use super::{at, under};

#[test]
fn no_tokens() {
    under(
        "Class «7up» end",
        "`7up` is no name: a name begins with a letter or `_`",
    );
    under("Class A «%» end", "the character `%` has no meaning here");
    under("Class A «-» end", "the character `-` has no meaning here");
    let is = "that is `?` and directly after it a number or a name that is not reserved";
    under(
        "QueryClass Q isA «?» x end",
        &format!("`?` is no mark: {is}"),
    );
    under(
        "QueryClass Q isA «?2a» end",
        &format!("`?2a` is no mark: {is}"),
    );
    under(
        "QueryClass Q isA «?end» end",
        &format!("`?end` is no mark: {is}"),
    );
}

#[test]
fn what_is_expected() {
    let begins = "`Class`, `Attribute`, `Constant`, `axiom`, `QueryClass`, `View` or `State`";
    let wrong = |text: &str, expected: &str, found: &str| {
        under(text, &format!("{expected} is expected here, not {found}"));
    };
    wrong("«foo»", begins, "`foo`");
    wrong(
        "«Querryclass» A end",
        begins,
        "`Querryclass`; did you mean `QueryClass`?",
    );
    wrong(
        "Class A end A «Clas» B end",
        begins,
        "`Clas`; did you mean `Class`?",
    );
    wrong("Class«»", "the name of a class", "the end of the file");
    wrong(
        "Class «end»",
        "the name of a class",
        "the reserved word `end`",
    );
    wrong(
        "Class «schema» end",
        "the name of a class",
        "the reserved word `schema`",
    );
    let next = "`isA`, `with` or `end`";
    wrong("Class A «isa» B end", next, "`isa`; did you mean `isA`?");
    wrong(
        "Class A isA B «wit» end",
        "`,`, `with` or `end`",
        "`wit`; did you mean `with`?",
    );
    let next = "`attribute` or `end`";
    wrong(
        "Class A with «atribute» a end",
        next,
        "`atribute`; did you mean `attribute`?",
    );
    let next = "`necessary` or `single`";
    wrong(
        "Class A with attribute, «sinlge» a end",
        next,
        "`sinlge`; did you mean `single`?",
    );
    wrong(
        "Attribute a with domain: A «end»",
        "`range`",
        "the reserved word `end`",
    );
    let next = "`domain`, `inverse` or `end`";
    wrong("Attribute a with «rnage»: A end", next, "`rnage`");
    let next = format!("`loose`, {begins}");
    wrong("Constant c «lose»", &next, "`lose`; did you mean `loose`?");
    let next = "`isA`, `types`, `needs`, `single` or `relates`";
    wrong("axiom A «need» a", next, "`need`; did you mean `needs`?");
    wrong(
        "axiom«»",
        "the name of a class or an attribute",
        "the end of the file",
    );
    let next = "`,`, `with` or `]`";
    wrong(
        "QueryClass Q isA [isA A «end»",
        next,
        "the reserved word `end`",
    );
    wrong(
        "QueryClass Q isA A «&» B end",
        "`,`, `with` or `end`",
        "`&`",
    );
    wrong("QueryClass Q isA «,»", "a class, query or view", "`,`");
    let next = "`derived`, `where` or `end`";
    wrong(
        "View V with «derivd» a end",
        next,
        "`derivd`; did you mean `derived`?",
    );
    let next = "`(` or the name of an attribute";
    wrong(
        "View V with derived a.«end»",
        next,
        "the reserved word `end`",
    );
    wrong(
        "View V with derived l: «end»",
        "a path",
        "the reserved word `end`",
    );
    wrong(
        "View V with derived (a «end»",
        "`^` or `:`",
        "the reserved word `end`",
    );
    wrong(
        "View V with derived l: a where l «end»",
        "`=`",
        "the reserved word `end`",
    );
    let next = "`for`, the name of an object or `end`";
    wrong("State S «,»", next, "`,`");
    wrong("State S ?x «in»", "`is`", "the reserved word `in`");
}

#[test]
fn missing_ends() {
    at(
        "Class A\n isA B\n",
        (1, 7),
        1,
        "Class `A` is begun here and has no `end`",
    );
    let text = "-- none\nView Wearers isA [isA B";
    at(
        text,
        (2, 6),
        7,
        "View `Wearers` is begun here and has no `end`",
    );
    let text = "Class A end\nAttribute b\nState S\nend";
    let message = "Attribute `b`, begun in line 2, has no `end` before this `State`";
    at(text, (3, 1), 5, message);
    let text = "Class A end\nQuerryClass Q end";
    let message =
        "this ends `QuerryClass`, but `A` was begun in line 1; did you mean `QueryClass`?";
    at(text, (2, 1), 11, message);
}
