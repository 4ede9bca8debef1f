//! Names that stand for nothing, for something else or for two things.

use super::{at, under};

#[test]
fn unknown_names() {
    under(
        "Class A isA «Bo» end Class Boat end",
        "no class is called `Bo`",
    );
    under(
        "Class Boat isA «boat» end",
        "no class is called `boat`; did you mean `Boat`?",
    );
    let text = "Attribute wears end axiom A needs «waers» Class A end";
    under(
        text,
        "no attribute is called `waers`; did you mean `wears`?",
    );
    let text = "Attribute a with inverse: wearer end View V with derived «waerer» end";
    under(
        text,
        "no attribute is called `waerer`; did you mean `wearer`?",
    );
    under(
        "Constant seven View V isA {«sven»} end",
        "no constant is called `sven`; did you mean `seven`?",
    );
    let text = "View Vast isA Object end View W isA «Vats» end";
    under(
        text,
        "no class, query or view is called `Vats`; did you mean `Vast`?",
    );
    let text = "View V with derived left: this where «lfet» = this end";
    under(text, "no path is labelled `lfet`; did you mean `left`?");
    let text = "State S strap0 person with wears: «stra0» end Attribute wears end";
    under(
        text,
        "no object of `S` is called `stra0`; did you mean `strap0`?",
    );
    let text = "State S for «Qeury» end QueryClass Query end";
    under(text, "no query is called `Qeury`; did you mean `Query`?");
    let text = "QueryClass Q isA ?stroke end State S for Q x «?strok» is x end";
    under(text, "`Q` has no mark `?strok`; did you mean `?stroke`?");
    let text = "QueryClass Q isA ?stroke end State S x «?stroke» is x end";
    under(
        text,
        "the mark `?stroke` is not known; write `State S for` and its query",
    );
}

#[test]
fn names_of_another_sort() {
    let text = "Class A isA «wears» end Attribute wears end";
    under(text, "`wears` is an attribute; a class is expected here");
    under(
        "Class A with attribute «A» end",
        "`A` is a class; an attribute is expected here",
    );
    let text = "Class A end Attribute a with inverse: b end axiom A needs «b»";
    under(
        text,
        "`b` is an inverse name; an attribute is expected here",
    );
    under(
        "View V end Class A isA «V» end",
        "`V` is a view; a class is expected here",
    );
    under(
        "QueryClass Q end axiom «Q» isA Q",
        "`Q` is a query; a class is expected here",
    );
    let text = "Constant c View V isA «c» end";
    under(
        text,
        "`c` is a constant; a class, query or view is expected here",
    );
    under(
        "State S end View V isA «S» end",
        "`S` is a state; a class, query or view is expected here",
    );
    under(
        "Class A end View V isA {«A»} end",
        "`A` is a class; a constant is expected here",
    );
    under(
        "Class A end State S for «A» end",
        "`A` is a class; a query is expected here",
    );
    let text = "Attribute a with inverse: b end View V with derived («b»^: Object) end";
    under(text, "`b` is an inverse name and takes no `^`; write `a`");
}

#[test]
fn names_twice() {
    at(
        "Class A end\nView A end",
        (2, 6),
        1,
        "`A` is a class already, declared in line 1",
    );
    at(
        "View A end\nState A end",
        (2, 7),
        1,
        "`A` is a view already, declared in line 1",
    );
    let text = "Attribute a end\nAttribute b with inverse: a end";
    at(
        text,
        (2, 27),
        1,
        "`a` is an attribute already, declared in line 1",
    );
    let text = "Attribute a with inverse: b end\nAttribute b end";
    at(
        text,
        (2, 11),
        1,
        "`b` is an inverse name already, declared in line 1",
    );
    at(
        "Constant c\nConstant c",
        (2, 10),
        1,
        "`c` is a constant already, declared in line 1",
    );
    let text = "View V with derived\nl: this\nl: this end";
    at(
        text,
        (3, 1),
        1,
        "`l` is the label of another path already, in line 2",
    );
    let text = "State S\nx\nx end";
    at(
        text,
        (3, 1),
        1,
        "the object `x` has a line of its own already, line 2",
    );
    let text = "Class A end\nState S\nx im A end";
    at(
        text,
        (3, 6),
        1,
        "`A` is a class, and no object has a class's name; is a word before it misspelt?",
    );
    let text = "Constant c State S x y\nc is x\nc is y end";
    at(text, (3, 1), 1, "`c` is an object already, in line 2");
    let text = "QueryClass Q isA ?m end State S for Q x y\n?m is x\n?0 is y end";
    at(text, (3, 1), 2, "`?0` is an object already, in line 2");
}

#[test]
fn queries_in_queries() {
    under("View V isA [isA «V»] end", "`V` cannot stand in itself");
    let text = "View V isA «W» end View W isA V end";
    under(
        text,
        "`W` stands further below; it must stand above to be used here",
    );
    let text = "QueryClass Q isA ?x end QueryClass R isA «Q» end";
    under(text, "`Q` has marks, and so cannot be used here");
    let text = "View V with derived l: this m: this where l = m «l» = this end";
    under(
        text,
        "the label `l` stands in another equation already; it may stand in one",
    );
}

#[test]
fn marks() {
    under(
        "View V isA [isA «?x»] end",
        "`?x` is a mark; a view has none",
    );
    let text = "QueryClass Q isA ?a, ?b, ?a, ?c, ?d, «?e» end";
    under(text, "QueryClass `Q` has 5 marks; a query has at most 4");
    let text = "QueryClass Q isA ?a, ?b, ?c, «?d», ?1 end";
    under(text, "QueryClass `Q` has 5 marks; a query has at most 4");
    for number in ["?4", "?00", "?99999999999999999999"] {
        let text = format!("QueryClass Q isA «{number}» end");
        under(&text, "a mark that is a number is one of `?0` to `?3`");
    }
}

#[test]
fn states() {
    let text = "Constant c Constant d State «S» x c is x end";
    under(text, "State `S` does not say which object `d` is");
    let text = "Constant c Constant d State S x c is x «d is x» end";
    under(text, "`c` and `d` are both `x`, and neither is loose");
    // Not even by way of a loose third.
    let text = "Constant c Constant d loose Constant e State S x c is x d is x «e is x» end";
    under(text, "`c` and `e` are both `x`, and neither is loose");
}
