//! Why `status` refuses.
use crate::report::Report;
use std::error::Error;
use std::fmt;

/// Why [`status`](crate::status::status) refuses, in the order in which it checks.
#[derive(Debug, Clone, Copy, PartialEq, Eq)]
pub enum CredentialError {
    /// 31: there is no registry state.
    MissingRegistry,
    /// 32: there is no credential state.
    MissingCredentialState,
    /// 33: there is no issuer prefix.
    MissingIssuerState,
    /// 34: the credential refers to no registry.
    MissingRegistryReference,
    /// 35: the credential's registry is another.
    RegistryMismatch,
    /// 36: the credential's issuer is not the registry's.
    IssuerMismatch,
    /// 37: the issuer prefix is not the credential's issuer.
    IssuerStateMismatch,
    /// 38: the credential state is of another registry or credential.
    CredentialStateMismatch,
    /// 39: the credential is revoked.
    Revoked,
}

impl CredentialError {
    const ALL: [CredentialError; 9] = [
        CredentialError::MissingRegistry,
        CredentialError::MissingCredentialState,
        CredentialError::MissingIssuerState,
        CredentialError::MissingRegistryReference,
        CredentialError::RegistryMismatch,
        CredentialError::IssuerMismatch,
        CredentialError::IssuerStateMismatch,
        CredentialError::CredentialStateMismatch,
        CredentialError::Revoked,
    ];

    /// The refusal's number, from 31 to 39.
    pub fn number(&self) -> u8 {
        self.row().0
    }

    /// Number, name and words.
    #[rustfmt::skip]
    pub(crate) fn row(&self) -> (u8, &'static str, &'static str) {
        use CredentialError::*;
        match self {
            MissingRegistry => (31, "MissingRegistry", "the registry's state is needed"),
            MissingCredentialState => (32, "MissingCredentialState", "the credential's state is needed"),
            MissingIssuerState => (33, "MissingIssuerState", "the issuer's key state is needed"),
            MissingRegistryReference => (34, "MissingRegistryReference", "the credential refers to no registry"),
            RegistryMismatch => (35, "RegistryMismatch", "the credential refers to another registry"),
            IssuerMismatch => (36, "IssuerMismatch", "the credential's issuer is not the registry's"),
            IssuerStateMismatch => (37, "IssuerStateMismatch", "the issuer's key state is another's"),
            CredentialStateMismatch => (38, "CredentialStateMismatch", "the credential's state is another's"),
            Revoked => (39, "Revoked", "the credential is revoked"),
        }
    }

    pub(crate) fn read(report: &Report) -> CredentialError {
        let number = report.number();
        let error = CredentialError::ALL.get(usize::from(number).wrapping_sub(31));
        *error.unwrap_or_else(|| report.stranger("a number", number))
    }
}

impl fmt::Display for CredentialError {
    fn fmt(&self, f: &mut fmt::Formatter<'_>) -> fmt::Result {
        let (number, name, words) = self.row();
        write!(f, "{number} {name}: {words}")
    }
}

impl Error for CredentialError {}
