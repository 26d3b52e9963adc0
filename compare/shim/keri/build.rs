include!("../place.rs");

fn main() {
    let mut tree = Tree::new();
    for module in ["credential", "error", "state", "verification"] {
        let name = format!("{module}.rs");
        tree.module(module, &name, &given(&format!("keri/src/{name}")));
    }
    // Behind the given bytes stand constructors from parts, since the fields are private.
    let mut registry = given("keri/src/registry.rs");
    registry.extend(own("registry_appendix.rs"));
    tree.module("registry", "registry.rs", &registry);
    tree.end();
}
