//! What commands can't reach: M1, which speaks of `merge` alone, and the mutex that reports a lock
//! taken twice.

use kernel_hal::sync::{LockTaken, Mutex};
use reference::commands::{decode, encode, Command, Decoded};
use std::panic::catch_unwind;
use zircon_object::task::{BasicPolicy, JobPolicy, PolicyAction, PolicyCondition};

fn only(action: PolicyAction) -> JobPolicy {
    let mut policy = JobPolicy::default();
    policy.apply(BasicPolicy { condition: PolicyCondition::NewChannel, action });
    policy
}

#[test]
fn m1_merge_of_own_allow_with_parent_deny_is_deny() {
    let merged = only(PolicyAction::Allow).merge(&only(PolicyAction::Deny));
    assert_eq!(merged.get_action(PolicyCondition::NewChannel), Some(PolicyAction::Deny));
    assert_eq!(merged.get_action(PolicyCondition::NewAny), None);
}

#[test]
fn a_lock_taken_twice_is_told_from_a_panic() {
    let twice = catch_unwind(|| {
        let mutex = Mutex::new(());
        let _first = mutex.lock();
        let _second = mutex.lock();
    });
    assert!(twice.unwrap_err().is::<LockTaken>());
}

#[test]
fn encode_is_read_back_by_decode() {
    for byte in 1..=0x1f {
        let input: Vec<u8> = std::iter::once(byte).chain(1..=11).collect();
        let (command, length) = match decode(&input) {
            Decoded::Whole(command, length) => (command, length),
            other => panic!("{:02x}: {:?}", byte, other),
        };
        let mut bytes = Vec::new();
        encode(&command, &mut bytes);
        assert_eq!(bytes, &input[..length]);
    }
}

#[test]
fn a_command_is_whole_or_stops() {
    assert_eq!(decode(&[]), Decoded::End);
    assert_eq!(decode(&[0x20, 0, 0]), Decoded::Stop);
    assert_eq!(decode(&[0x02]), Decoded::Stop);
    assert_eq!(decode(&[0x02, 9, 9]), Decoded::Whole(Command::KillJob { job: 9 }, 2));
}
