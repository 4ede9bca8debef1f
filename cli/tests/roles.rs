//! A query that the library refuses in another place than its own, and how that is
//! told.

use bik::read::read;
use bik::refused::{concept, Role};
use bik::source::Source;
use bikuvoa::{check_concept, check_query, check_view};

#[test]
fn queries_in_another_place() {
    let text = "Attribute a end
QueryClass Long with derived a.a.a.a.a.a.a end
QueryClass Marked with derived (a: ?x) end";
    let source = Source {
        name: "q.bik".to_string(),
        text: text.to_string(),
    };
    let file = read(source).unwrap_or_else(|fault| panic!("{fault}"));
    let told = |name: &str, role: Role| {
        let query = file.query(name).expect("a query of the file");
        let (schema, words) = (file.schema(), query.concept.words());
        let checked = match role {
            Role::Plain => check_concept(&schema, &words),
            Role::Query => check_query(&schema, &words),
            Role::View => check_view(&schema, &words),
        };
        let refusal = checked.expect_err("a query for another place");
        let fault = concept(&file, query, role, refusal).to_string();
        fault.lines().next().unwrap_or_default().to_string()
    };
    let steps = "QueryClass `Long` has 7 steps; a view has at most 6";
    assert_eq!(told("Long", Role::View), format!("q.bik:2:12: {steps}"));
    let mark = "q.bik:3:36: `?x` of QueryClass `Marked` is a mark;";
    assert_eq!(
        told("Marked", Role::View),
        format!("{mark} a view has none")
    );
    let plain = "a query by which objects are selected has none";
    assert_eq!(told("Marked", Role::Plain), format!("{mark} {plain}"));
}
