include!("../place.rs");

fn main() {
    let mut tree = Tree::new();
    for module in ["acdc", "config", "identifier", "member_set", "seal", "tel", "threshold", "toad"] {
        let name = format!("{module}.rs");
        tree.module(module, &name, &given(&format!("keri-events/src/{name}")));
    }
    tree.module("event", "event/mod.rs", &given("keri-events/src/event/mod.rs"));
    for part in ["delegation", "inception", "interaction", "rotation"] {
        tree.file(&format!("event/{part}.rs"), &own(&format!("src/event/{part}.rs")));
    }
    tree.end();
}
