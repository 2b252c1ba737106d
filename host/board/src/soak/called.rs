//! What a soak is called as.

use std::env;

/// The variable in which a script that runs the command says what it is called as itself.
const VARIABLE: &str = "CARV_SOAK_CALLED_AS";

/// How the user calls the command: `tools/soak`, or by the program's own name.
pub fn called_as() -> String {
    let told = env::var(VARIABLE).ok();
    told.filter(|name| !name.is_empty())
        .unwrap_or("board soak".to_string())
}
