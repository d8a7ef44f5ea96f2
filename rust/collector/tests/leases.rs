//! The example's story, held to what is stored beside it.

#[allow(dead_code)]
#[path = "../examples/leases.rs"]
mod leases;

#[test]
fn the_story_is_as_stored() {
    let mut told = Vec::new();
    leases::story(&mut told).expect("the story comes to its end");
    let told = String::from_utf8(told).expect("words");
    assert_eq!(told, include_str!("../examples/leases.out"));
}
