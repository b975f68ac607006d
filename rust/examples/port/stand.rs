//! Where devices may be, and what they are, as a store has them.
#![allow(dead_code)] // each program uses a part
use super::store::{Store, Value};
use osdp::PdId;
use std::io;

/// An address and a rate.
pub type Place = (u8, u32);

/// Where a device may be, of which it is at the last one or at the first ones while a COMSET isn't answered, and what it is: vendor, model and serial number.
#[derive(Clone, PartialEq, Eq)]
pub struct Stand {
    pub name: u8,
    pub places: Vec<Place>,
    pub id: Option<Id>,
}

/// What a device is: vendor, model and serial number.
pub type Id = (String, u8, u32);

/// What a device is, as it tells it.
pub fn id_of(id: &PdId) -> Id {
    let [a, b, c] = id.product.vendor;
    let vendor = format!("{a:02X}{b:02X}{c:02X}");
    (vendor, id.product.model, id.serial)
}

impl Stand {
    pub fn at(name: u8, rate: u32) -> Stand {
        let places = vec![(name, rate)];
        let id = None;
        Stand { name, places, id }
    }

    /// The one in use.
    pub fn place(&self) -> Place {
        self.places[self.places.len() - 1]
    }

    /// Whether it may be at an address.
    pub fn may_be_at(&self, address: u8) -> bool {
        self.places.iter().any(|place| place.0 == address)
    }

    /// Whether two devices may be at one address.
    pub fn meets(&self, other: &Stand) -> bool {
        self.places.iter().any(|place| other.may_be_at(place.0))
    }
}

/// A number of a row, where it is one of this kind.
fn number<T: TryFrom<i64>>(value: &Value) -> Option<T> {
    value.number().and_then(|number| T::try_from(number).ok())
}

/// The stand that a row tells; none where it isn't whole. The place in use has rank 0, and is the last one.
fn read(store: &Store, row: &[Value]) -> io::Result<Option<Stand>> {
    let [name, vendor, model, serial] = row else {
        return Ok(None);
    };
    let rows = "SELECT address, rate FROM places WHERE device = ? ORDER BY rank DESC";
    let rows = store.rows(rows, std::slice::from_ref(name))?;
    let place = |row: &Vec<Value>| Some((number(&row[0])?, number(&row[1])?));
    let places: Option<Vec<Place>> = rows.iter().map(place).collect();
    let id = match vendor.text() {
        Some(vendor) => number(model)
            .zip(number(serial))
            .map(|(model, serial)| Some((vendor.to_string(), model, serial))),
        None => Some(None),
    };
    let stand = number(name).zip(places).zip(id);
    let stand = stand.map(|((name, places), id)| Stand { name, places, id });
    Ok(stand.filter(|stand| !stand.places.is_empty()))
}

/// The stands that a store has. An error where they aren't whole, or two devices may be at one address.
pub fn read_stands(store: &Store) -> io::Result<Vec<Stand>> {
    let mut stands: Vec<Stand> = Vec::new();
    let rows = "SELECT name, vendor, model, serial FROM devices ORDER BY name";
    for row in store.rows(rows, &[])? {
        match read(store, &row)? {
            Some(stand) if !stands.iter().any(|other| other.meets(&stand)) => stands.push(stand),
            _ => {
                let why = "the store is damaged: a device has no place of its own. Bring back a copy of it";
                return Err(io::Error::other(why));
            }
        }
    }
    Ok(stands)
}

/// The stand of a device of this name: the one that is kept, or else at this address and rate. An error where another device may be there.
pub fn stand_of(stands: &mut Vec<Stand>, name: u8, rate: u32) -> io::Result<usize> {
    let at = match stands.iter().position(|stand| stand.name == name) {
        Some(at) => at,
        None => {
            stands.push(Stand::at(name, rate));
            stands.len() - 1
        }
    };
    let mine = &stands[at];
    match stands
        .iter()
        .find(|other| other.name != name && mine.meets(other))
    {
        Some(other) => Err(io::Error::other(format!(
            "device {}, which is kept, may be at the address of device {name}",
            other.name
        ))),
        None => Ok(at),
    }
}

/// Writes a stand in the transaction of this turn, where the store has another one: each writing wears flash out.
pub fn write_stand(store: &mut Store, stand: &Stand) -> io::Result<()> {
    let name = Value::from(i64::from(stand.name));
    let rows = "SELECT name, vendor, model, serial FROM devices WHERE name = ?";
    let rows = store.rows(rows, std::slice::from_ref(&name))?;
    if let Some(row) = rows.first()
        && read(store, row)?.as_ref() == Some(stand)
    {
        return Ok(());
    }
    let insert = "INSERT OR IGNORE INTO devices (name) VALUES (?)";
    store.write(insert, std::slice::from_ref(&name))?;
    let [vendor, model, serial] = match &stand.id {
        Some((vendor, model, serial)) => [
            Value::from(vendor.as_str()),
            Value::from(i64::from(*model)),
            Value::from(i64::from(*serial)),
        ],
        None => [Value::Nothing, Value::Nothing, Value::Nothing],
    };
    store.write(
        "UPDATE devices SET vendor = ?, model = ?, serial = ? WHERE name = ?",
        &[vendor, model, serial, name.clone()],
    )?;
    let delete = "DELETE FROM places WHERE device = ?";
    store.write(delete, std::slice::from_ref(&name))?;
    for (rank, (address, rate)) in (0i64..).zip(stand.places.iter().rev()) {
        store.write(
            "INSERT INTO places VALUES (?, ?, ?, ?)",
            &[
                name.clone(),
                rank.into(),
                i64::from(*address).into(),
                i64::from(*rate).into(),
            ],
        )?;
    }
    Ok(())
}
