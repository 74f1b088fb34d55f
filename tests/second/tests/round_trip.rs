//! Reading what was written gives back every value and field.

use second::random::{self, Rng};
use second::read::{field, read, FieldName, MembershipChange, Message};
use second::write::*;

const GUID: [u8; 16] = [9; 16];

fn client(dnet_version: u32) -> ConnectInfoValues {
    ConnectInfoValues {
        flags: 2,
        dnet_version,
        instance_guid: GUID,
        application_guid: [8; 16],
    }
}

fn run(length: usize, writer: impl Fn(&mut [u8]) -> Written) -> (Written, Vec<u8>) {
    let mut buf = vec![0x5A; length];
    let outcome = writer(&mut buf);
    buf.truncate(outcome.written);
    (outcome, buf)
}

fn some(rng: &mut Rng, make: fn(&mut Rng) -> Vec<u8>) -> Option<Vec<u8>> {
    let content = make(rng);
    rng.one_in(2).then_some(content)
}

#[test]
fn round_trip_connect_info() {
    let mut rng = Rng::new(1);
    for _ in 0..20_000 {
        let flags = rng.pick(&[2, 4]);
        let values = ConnectInfoValues {
            flags,
            ..client(rng.pick(&[0, 6, 7, 8]))
        };
        let address = some(&mut rng, random::free_bytes).filter(|_| values.dnet_version >= 7);
        let url = some(&mut rng, random::byte_text);
        let connect_data = some(&mut rng, random::free_bytes);
        let password = some(&mut rng, random::wide_text);
        let data = some(&mut rng, random::free_bytes);
        let name = some(&mut rng, random::wide_text);
        let fields = ConnectInfoFields {
            alternate_address: address.as_deref(),
            url: url.as_deref(),
            connect_data: connect_data.as_deref(),
            password: password.as_deref(),
            data: data.as_deref(),
            name: name.as_deref(),
        };
        let (outcome, m) = run(1_600, |buf| write_connect_info(buf, &values, &fields));
        assert_eq!(outcome.number, 0);
        let Ok(Message::ConnectInfo(c)) = read(&m) else {
            panic!("refused")
        };
        assert_eq!(
            (c.flags, c.dnet_version),
            (values.flags, values.dnet_version)
        );
        assert_eq!((c.instance_guid, c.application_guid), (GUID, [8; 16]));
        let shown = FieldName::ALL.map(|which| field(&m, which).to_vec());
        let given = [name, data, password, connect_data, url, address];
        assert_eq!(shown, given.map(Option::unwrap_or_default));
    }
}

#[test]
fn round_trip_entries() {
    let mut rng = Rng::new(2);
    for _ in 0..20_000 {
        let values = EntryValues {
            dpnid: random::id(&mut rng),
            owner: rng.word(),
            flags: rng.word(),
            version: rng.word(),
            dnet_version: rng.word(),
        };
        let url = some(&mut rng, random::byte_text);
        let data = some(&mut rng, random::free_bytes);
        let name = some(&mut rng, random::wide_text);
        let fields = EntryFields {
            url: url.as_deref(),
            data: data.as_deref(),
            name: name.as_deref(),
        };
        let group = CreateGroupValues {
            requesting: rng.word(),
            context: rng.word(),
            entry: values,
        };
        let of_group = rng.one_in(2);
        let (_, m) = run(900, |buf| match of_group {
            true => write_create_group(buf, &group, &fields),
            false => write_add_player(buf, &values, &fields),
        });
        let a = match read(&m) {
            Ok(Message::AddPlayer(a)) if !of_group => a,
            Ok(Message::CreateGroup(g)) if of_group => {
                assert_eq!((g.requesting, g.context), (group.requesting, group.context));
                g.entry
            }
            other => panic!("{other:?}"),
        };
        assert_eq!(
            (a.dpnid, a.owner, a.flags),
            (values.dpnid, values.owner, values.flags)
        );
        assert_eq!(
            (a.version, a.version_not_used, a.dnet_version),
            (values.version, 0, values.dnet_version)
        );
        assert_eq!(field(&m, FieldName::Name), name.unwrap_or_default());
        assert_eq!(field(&m, FieldName::Data), data.unwrap_or_default());
        assert_eq!(field(&m, FieldName::Url), url.unwrap_or_default());
    }
}

#[test]
fn round_trip_fixed_messages() {
    let mut rng = Rng::new(3);
    for _ in 0..5_000 {
        let (first, second) = (random::id(&mut rng), random::id(&mut rng));
        let (version, context, other) = (rng.word(), rng.word(), rng.word());
        let destroy = DestroyPlayerValues {
            dpnid: first,
            version,
            reason: other,
        };
        let (_, m) = run(40, |buf| write_destroy_player(buf, &destroy));
        let Ok(Message::DestroyPlayer(d)) = read(&m) else {
            panic!("refused")
        };
        assert_eq!(
            (d.dpnid, d.version, d.version_not_used, d.reason),
            (first, version, 0, other)
        );
        let request = RequestAddPlayerToGroupValues {
            context,
            group: first,
            player: second,
        };
        let (_, m) = run(40, |buf| write_request_add_player_to_group(buf, &request));
        let Ok(Message::RequestAddPlayerToGroup(r)) = read(&m) else {
            panic!("refused")
        };
        assert_eq!((r.context, r.group, r.player), (context, first, second));
        let destroy = DestroyGroupValues {
            group: first,
            version,
            requesting: other,
            context,
        };
        let (_, m) = run(40, |buf| write_destroy_group(buf, &destroy));
        let Ok(Message::DestroyGroup(d)) = read(&m) else {
            panic!("refused")
        };
        assert_eq!(
            (d.group, d.version, d.version_not_used),
            (first, version, 0)
        );
        assert_eq!((d.requesting, d.context), (other, context));
        let change = MembershipValues {
            group: first,
            player: second,
            version,
            requesting: other,
            context,
        };
        let read_back = MembershipChange {
            group: first,
            player: second,
            version,
            version_not_used: 0,
            requesting: other,
            context,
        };
        let (_, m) = run(40, |buf| write_add_player_to_group(buf, &change));
        assert_eq!(read(&m), Ok(Message::AddPlayerToGroup(read_back.clone())));
        let (_, m) = run(40, |buf| write_delete_player_from_group(buf, &change));
        assert_eq!(read(&m), Ok(Message::DeletePlayerFromGroup(read_back)));
    }
}
