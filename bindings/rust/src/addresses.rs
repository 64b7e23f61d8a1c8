//! The addresses of a connection.

use crate::ffi;
use std::fmt;

/// The addresses of a connection: the transport addresses of its CR (X.224 section 13.3.4) and the session
/// addresses of its CN (X.225 section 8). An empty one means that there is no address.
#[derive(Clone, Copy)]
pub struct Addresses(pub(crate) ffi::osi_addressing);

impl Addresses {
    /// The transport address of the end that asks, at most 32 octets.
    #[must_use]
    pub fn calling_tsap(&self) -> &[u8] {
        &self.0.calling_tsap.octets[..self.0.calling_tsap.length.into()]
    }

    /// That of the end that is asked.
    #[must_use]
    pub fn called_tsap(&self) -> &[u8] {
        &self.0.called_tsap.octets[..self.0.called_tsap.length.into()]
    }

    /// The session address of the user that asks, at most 16 octets.
    #[must_use]
    pub fn calling_selector(&self) -> &[u8] {
        &self.0.calling_selector.octets[..self.0.calling_selector.length.into()]
    }

    /// That of the user that is asked.
    #[must_use]
    pub fn called_selector(&self) -> &[u8] {
        &self.0.called_selector.octets[..self.0.called_selector.length.into()]
    }
}

impl fmt::Debug for Addresses {
    fn fmt(&self, out: &mut fmt::Formatter<'_>) -> fmt::Result {
        out.debug_struct("Addresses")
            .field("calling_tsap", &self.calling_tsap())
            .field("called_tsap", &self.called_tsap())
            .field("calling_selector", &self.calling_selector())
            .field("called_selector", &self.called_selector())
            .finish()
    }
}
