//! What a client sends to a proxy's end, request by request.

// Addresses of a connect with their types, without the port.
pub const FOUR: [u8; 5] = [1, 192, 0, 2, 7];
pub const SIX: [u8; 17] = [4, 32, 1, 13, 184, 0, 0, 0, 0, 0, 0, 0, 0, 0, 0, 0, 1];

pub const BOUND: [u8; 16] = [10, 0, 0, 1, 5, 6, 7, 8, 9, 10, 11, 12, 13, 14, 15, 16];

pub fn greeting(methods: &[u8]) -> Vec<u8> {
    [&[5, methods.len() as u8], methods].concat()
}

pub fn credentials(user: &[u8], password: &[u8]) -> Vec<u8> {
    [&[1, user.len() as u8], user, &[password.len() as u8], password].concat()
}

pub fn named(name: &[u8]) -> Vec<u8> {
    [&[3, name.len() as u8], name].concat()
}

// Of these three bytes, an address with its type, and port 443.
pub fn connect(head: [u8; 3], address: &[u8]) -> Vec<u8> {
    [&head, address, &[1, 187]].concat()
}

// Port 443; a name of none is not there.
pub fn request4(command: u8, address: [u8; 4], user_id: &[u8], name: Option<&[u8]>) -> Vec<u8> {
    let name = name.map_or(vec![], |name| [name, &[0]].concat());
    [&[4, command, 1, 187], &address[..], user_id, &[0], &name].concat()
}
