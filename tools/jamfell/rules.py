"""The reading rules of a ledger (docs/RULES.md, "Reading rules"), but for those that its layout makes."""


def exact(toad, backers):
    """`Toad::exact`: whether a toad fits a number of backers."""
    return 1 <= toad <= backers if backers else toad == 0


def _registry_faults(state):
    """Of one registry by itself."""
    for place, backer in enumerate(state.backers):
        if backer in state.backers[:place]:
            yield f"its backer at position {place} is one that stands before it"
    if not exact(state.toad, len(state.backers)):
        yield f"its toad is {state.toad}, which does not fit {len(state.backers)} backers"
    if "NoBackers" in state.config and state.backers:
        yield "it has the trait NoBackers, and backers"


def broken_rules(ledger):
    """Every breach: 'registry' or 'credential', its place from 0, and what is wrong with it."""
    ids = [state.id for state in ledger.registries]
    for place, state in enumerate(ledger.registries):
        if state.id in ids[:place]:
            yield "registry", place, f"it has the id of registry {1 + ids.index(state.id)}"
        for why in _registry_faults(state):
            yield "registry", place, why
    keys = [(state.registry, state.credential) for state in ledger.credentials]
    for place, state in enumerate(ledger.credentials):
        if keys[place] in keys[:place]:
            yield "credential", place, f"it has the key of credential {1 + keys.index(keys[place])}"
        if state.registry not in ids:
            yield "credential", place, "its registry is not held"
        if state.sn > 1:
            yield "credential", place, f"its sn is {state.sn}, and not 0 or 1"
