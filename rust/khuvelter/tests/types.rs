//! The table of types is the proved library's: for each of the 256 numbers, what it is for and how long its element is.

use khuvelter::types::{self, Class};
use khuvelter::{Answer, Gateway, Point, Proposal, Refusal, Station};

/// A gateway with one station.
fn gateway() -> Gateway {
    Gateway::open(8, &[Station::new(7, 2, 4)]).unwrap()
}

/// A command of a type with one object that has so many octets of element.
fn command(type_id: u8, element: usize) -> Vec<u8> {
    let mut asdu = vec![type_id, 0x01, 0x06, 0x00, 0x07, 0x00];
    asdu.resize(6 + 3 + element, 0x00);
    asdu
}

/// The lengths of an element at which a command of this type is not malformed; all of them if the entry does not serve the type.
fn lengths(said: impl Fn(&[u8]) -> Result<Answer, Refusal>, type_id: u8) -> Vec<usize> {
    (0..16)
        .filter(|&element| said(&command(type_id, element)).map_or_else(|refusal| refusal.number() != 2, |_| true))
        .collect()
}

#[test]
fn points() {
    for type_id in 0..=255 {
        let mut gateway = gateway();
        let registered = gateway.register(&Point::new(7, 1, type_id, [0xFF; 12]));
        if types::class(type_id) != Some(Class::Point) {
            assert_eq!(registered.unwrap_err().number(), 11, "type {type_id}");
            continue;
        }
        registered.unwrap();
        let answer = gateway.system_command(&[0x64, 0x01, 0x06, 0x00, 0x07, 0x00, 0x00, 0x00, 0x00, 0x14]).unwrap();
        // Confirmation and termination have ten octets each; between them one header, one address and the element.
        assert_eq!(types::element_octets(type_id), Some(answer.octets().len() - 20 - 9), "type {type_id}");
        let object = answer.asdus().nth(1).and_then(|asdu| asdu.objects().next()).unwrap();
        assert!(object.ioa == 1 && object.element.iter().all(|&octet| octet == 0xFF), "type {type_id}");
    }
}

#[test]
fn commands() {
    let all: Vec<_> = (0..16).collect();
    for type_id in 0..=255 {
        let expected = |class| match (types::class(type_id), types::element_octets(type_id)) {
            (Some(served), Some(octets)) if served == class => vec![octets],
            _ => all.clone(),
        };
        let system = |asdu: &[u8]| gateway().system_command(asdu);
        assert_eq!(lengths(system, type_id), expected(Class::System), "type {type_id}");
        let process = |asdu: &[u8]| gateway().process_command(asdu, &Proposal::confirm(asdu)).map(|said| said.answer);
        assert_eq!(lengths(process, type_id), expected(Class::Process), "type {type_id}");
    }
}

#[test]
fn names() {
    for type_id in types::all() {
        let name = types::name(type_id).unwrap();
        assert_eq!(types::number(name), Some(type_id));
        assert!(types::words(type_id).is_some());
    }
    assert_eq!(types::all().count(), 30 + 14 + 7 + 1);
    assert_eq!(types::class(types::M_EI_NA_1), Some(Class::EndOfInitialisation));
    assert_eq!(
        gateway().connection_started().unwrap().asdus().map(|asdu| asdu.type_name()).collect::<Vec<_>>(),
        ["M_EI_NA_1"]
    );
}
