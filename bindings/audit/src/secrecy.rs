//! Passwords that go in clear within TLS: where a client has it and the server's side has none,
//! nothing may ask for one, and none may go.

use mysql_session::Event;

/// Plugins by which no password goes in clear, whatever the server answers.
const HASHED: [&[u8]; 4] = [
    b"mysql_native_password",
    b"caching_sha2_password",
    b"client_ed25519",
    b"parsec",
];
/// By which caching_sha2_password asks for the password itself. Some clients read no byte behind it.
const FULL_AUTHENTICATION: u8 = 4;
const COM_CHANGE_USER: u8 = 0x11;

/// Whether a password in clear may follow, or comes with it.
pub fn has_clear_password(event: &Event) -> bool {
    match event {
        Event::Login(login) => is_clear(login.plugin, login.response),
        Event::ChangeUser(change) => is_clear(change.plugin, change.response),
        Event::AuthSwitch { plugin, .. } | Event::NextFactor { plugin, .. } => {
            !HASHED.contains(plugin)
        }
        Event::AuthMore(data) => data.first() == Some(&FULL_AUTHENTICATION),
        // What can't be read may have one.
        Event::OldAuthSwitch | Event::PluginData(_) | Event::CutOffLogin(_) => true,
        Event::Other([COM_CHANGE_USER, ..]) => true,
        _ => false,
    }
}

fn is_clear(plugin: &[u8], response: &[u8]) -> bool {
    !response.is_empty() && !plugin.is_empty() && !HASHED.contains(&plugin)
}

#[cfg(test)]
mod tests {
    use super::has_clear_password;
    use mysql_session::Event;

    #[test]
    fn clear_passwords_are_known() {
        let switch = |plugin| Event::AuthSwitch { plugin, data: b"" };
        for event in [
            switch(b"mysql_clear_password"),
            switch(b"dialog"),
            Event::AuthMore(&[4]),
            Event::AuthMore(&[4, 0]),
            Event::OldAuthSwitch,
            Event::Other(b"\x11ann"),
        ] {
            assert!(has_clear_password(&event), "{event:?}");
        }
        for event in [
            switch(b"caching_sha2_password"),
            Event::AuthMore(&[3]),
            Event::Other(b"\x03SELECT 1"),
            Event::Ping,
        ] {
            assert!(!has_clear_password(&event), "{event:?}");
        }
    }
}
