
// What follows is not of the given file: states from their parts, since their fields are private.
#[allow(missing_docs)]
impl RegistryState {
    pub const fn from_parts(
        id: Said<'static>,
        issuer: Identifier<'static>,
        sn: Number,
        latest: Said<'static>,
        config: Vec<ConfigTrait>,
        backer_threshold: Toad,
        backers: Vec<BasicPrefix<'static>>,
    ) -> Self {
        Self { id, issuer, sn, latest, config, backer_threshold, backers }
    }
}
#[allow(missing_docs)]
impl CredentialState {
    pub const fn from_parts(registry: Said<'static>, credential: Said<'static>, sn: Number, head: Said<'static>) -> Self {
        Self { registry, credential, sn, head }
    }
}
