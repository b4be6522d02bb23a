//! Stand-in for `maybe_async`: keeps async code as it is.

use proc_macro::TokenStream;

/// Leaves the item as written.
#[proc_macro_attribute]
pub fn maybe_async(_: TokenStream, item: TokenStream) -> TokenStream {
    item
}
