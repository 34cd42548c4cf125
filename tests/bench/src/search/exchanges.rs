//! Exchanges from the literature in four runs, with six to eight events in each role. None breaks a claim.
//!
//! A part of a message that is only passed on is neither read nor sent by the agent that passes it on: the intruder, who carries every message,
//! takes it from where it is sent to where it is read. What an agent counts up or hashes before it sends it is sent as it is.
use super::{long_lists, script};

/// Needham-Schroeder-Lowe with five claims of each role.
const LOWE: &str = "
    role A na
    send B {A,na}pk(B)
    read B {na,y,B}pk(A)
    send B {y}pk(B)
    claim na y sk(A) na,y y,B
    role B nb
    read A {A,x}pk(B)
    send A {x,nb,B}pk(A)
    read A {nb}pk(B)
    claim x nb sk(B) x,nb nb,B";

/// Needham-Schroeder-Lowe, where B sends a further secret m, which A confirms.
const LOWE_CONFIRMED: &str = "
    role A na
    send B {A,na}pk(B)
    read B {na,y,B}pk(A)
    send B {y}pk(B)
    read B {y,z,B}pk(A)
    send B {z}pk(B)
    claim na y z
    role B nb m
    read A {A,x}pk(B)
    send A {x,nb,B}pk(A)
    read A {nb}pk(B)
    send A {nb,m,B}pk(A)
    read A {m}pk(B)
    claim x nb m";

/// The bilateral exchange of a key, begun by B.
const BILATERAL: &str = "
    role A na kab
    read B B,{x,B}pk(A)
    send B {x,na,A,kab}pk(B)
    read B {na}kab
    claim x na kab
    role B nb
    send A B,{nb,B}pk(A)
    read A {nb,y,A,z}pk(B)
    send A {y}z
    claim nb y z";

/// The revised Andrew exchange, and a call d under the new key.
const ANDREW: &str = "
    role A na d
    send B A,na
    read B {na,z}k(A,B)
    send B {na}z
    read B {y}k(A,B)
    send B {y,d}z
    claim z y d
    role B nb kab
    read A A,x
    send A {x,kab}k(A,B)
    read A {x}kab
    send A {nb}k(A,B)
    read A {nb,w}kab
    claim kab nb w";

/// Otway-Rees, and a handshake under the new key.
const OTWAY_REES: &str = "
    role A m na
    send B m,A,B,{na,m,A,B}k(A,S)
    read B m,{na,z}k(A,S)
    read B {v}z
    send B {B,v}z
    claim z na
    role B nb
    read A w,A,B
    send S w,A,B,{nb,w,A,B}k(B,S)
    read S w,{nb,z}k(B,S)
    send A {nb}z
    read A {B,nb}z
    claim z nb
    role S kab
    read B w,A,B,{x,w,A,B}k(A,S),{y,w,A,B}k(B,S)
    send B w,{x,kab}k(A,S),{y,kab}k(B,S)
    claim kab x y k(A,S)";

/// Yahalom.
const YAHALOM: &str = "
    role A na
    send B A,na
    read S {B,z,na,y}k(A,S)
    send B {y}z
    claim z y k(A,S)
    role B nb
    read A A,x
    send S B,{A,x,nb}k(B,S)
    read A {A,z}k(B,S),{nb}z
    claim z nb k(B,S)
    role S kab
    read B B,{A,x,y}k(B,S)
    send A {B,kab,x,y}k(A,S),{A,kab}k(B,S)
    claim kab y k(A,S) k(B,S)";

/// Woo and Lam's exchange in which both sides are sure of each other.
const WOO_LAM: &str = "
    role A na
    send B A,na
    read B B,y
    send B {A,B,na,y}k(A,S)
    read B {B,na,y,z}k(A,S),{na,y}z
    send B {y}z
    claim z k(A,S)
    role B nb
    read A A,x
    send A B,nb
    send S {A,B,x,nb}k(B,S)
    read S {A,x,nb,z}k(B,S)
    send A {x,nb}z
    read A {nb}z
    claim z k(B,S)
    role S kab
    read B {A,B,x,y}k(A,S)
    read B {A,B,x,y}k(B,S)
    send B {B,x,y,kab}k(A,S)
    send B {A,x,y,kab}k(B,S)
    claim kab k(A,S) k(B,S)";

/// Kao and Chow's second exchange, with a key t for the handshake.
const KAO_CHOW: &str = "
    role A na
    send S A,B,na
    read B {A,B,na,z,t}k(A,S),{na,z}t,y
    send B {y,z}t
    claim z t k(A,S)
    role B nb
    read S {A,B,x,z,t}k(B,S)
    send A {x,z}t,nb
    read A {nb,z}t
    claim z t k(B,S)
    role S kab kt
    read A A,B,x
    send B {A,B,x,kab,kt}k(A,S),{A,B,x,kab,kt}k(B,S)
    claim kab kt k(A,S) k(B,S)";

/// Needham-Schroeder with shared keys, the part for B beside that for A.
const SHARED_KEYS: &str = "
    role A na
    send S A,B,na
    read S {na,B,z}k(A,S)
    read B {y}z
    send B {y,y}z
    claim z y
    role B nb
    read A {z,A}k(B,S)
    send A {nb}z
    read A {nb,nb}z
    claim z nb k(B,S)
    role S kab
    read A A,B,x
    send A {x,B,kab}k(A,S)
    send A {kab,A}k(B,S)
    claim kab k(A,S) k(B,S)";

/// Carlsen's exchange with secret keys.
const CARLSEN: &str = "
    role A na
    send B A,na
    read B {na,B,z}k(A,S)
    read B {na}z,y
    send B {y}z
    claim z k(A,S)
    role B nb mb
    read A A,x
    send S A,x,B,nb
    read S {z,nb,A}k(B,S)
    send A {x}z,mb
    read A {mb}z
    claim z k(B,S)
    role S kab
    read B A,x,B,y
    send B {kab,y,A}k(B,S)
    send B {x,B,kab}k(A,S)
    claim kab k(A,S) k(B,S)";

/// Two runs of each role between a and b.
const TWICE: [&str; 4] = ["A a b", "A a b", "B a b", "B a b"];

/// Runs of both roles between a and b, and of both with a and b exchanged.
const BOTH_WAYS: [&str; 4] = ["A a b", "B a b", "A b a", "B b a"];

/// Two runs of each role, of which one is with the untrusted agent.
const WITH_STRANGER: [&str; 4] = ["A a e", "B a b", "A a b", "B a b"];

/// A run of each role, and one more of the server.
const SERVED_TWICE: [&str; 4] = ["A a b s", "B a b s", "S a b s", "S a b s"];

/// The files with their names.
pub fn all() -> Vec<(&'static str, Vec<u8>)> {
    vec![
        ("Needham-Schroeder-Lowe, 6 events", long_lists::lowe(2)),
        ("Needham-Schroeder-Lowe, 8 events", script::file(LOWE, &TWICE)),
        ("Lowe with a message confirmed, 8 events", script::file(LOWE_CONFIRMED, &BOTH_WAYS)),
        ("the same, a run of it with an untrusted agent", script::file(LOWE_CONFIRMED, &WITH_STRANGER)),
        ("bilateral key exchange, 6 events", script::file(BILATERAL, &BOTH_WAYS)),
        ("Andrew, 6 events", long_lists::andrew()),
        ("Andrew with a call, 8 events", script::file(ANDREW, &BOTH_WAYS)),
        ("Otway-Rees with a handshake, 6 and 7 events", script::file(OTWAY_REES, &SERVED_TWICE)),
        ("Yahalom, 6 events", script::file(YAHALOM, &SERVED_TWICE)),
        ("Woo-Lam, 7 and 8 events", script::file(WOO_LAM, &SERVED_TWICE)),
        ("Kao-Chow, 6 events", script::file(KAO_CHOW, &SERVED_TWICE)),
        ("Needham-Schroeder, shared keys, 6 events", script::file(SHARED_KEYS, &SERVED_TWICE)),
        ("Carlsen, 6 and 7 events", script::file(CARLSEN, &SERVED_TWICE)),
    ]
}
