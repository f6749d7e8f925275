//! Questions to a mesh list: good ones, and each fault that one can have.

use crate::alignment::model::{submesh, MOST_ASKED};
use crate::inputs::random::Random;
use crate::mesh::model::{parse_meshes, Mesh};

/// A record number and point numbers.
#[derive(Clone, Debug)]
pub struct Question {
    pub number: u32,
    pub asked: Vec<u32>,
}

/// What can be wrong with a question.
#[derive(Clone, Copy, Debug)]
pub enum Fault {
    NoRecord,
    TooMany,
    Past,
}

pub const FAULTS: [Fault; 3] = [Fault::NoRecord, Fault::TooMany, Fault::Past];

/// Each of them, and none.
pub fn every_fault() -> impl Iterator<Item = Option<Fault>> {
    FAULTS.map(Some).into_iter().chain([None])
}

/// The records of a payload, or none where it is refused.
pub fn records(payload: &[u8]) -> u32 {
    let meshes = parse_meshes(payload).reading.unwrap_or_default();
    meshes.iter().map(|mesh| mesh.submeshes.len() as u32).sum()
}

fn points(meshes: &[Mesh], number: u32) -> u32 {
    submesh(meshes, number).map_or(0, |submesh| submesh.points.len() as u32)
}

/// Numbers below a limit: the first, the last, any, again what was asked before, and close to it.
pub fn some(random: &mut Random, count: usize, limit: u32) -> Vec<u32> {
    let mut asked: Vec<u32> = Vec::new();
    for _ in 0..count {
        let again = asked.get(random.below(count)).copied();
        let number = match random.below(6) {
            0 => 0,
            1 => limit - 1,
            2 => again.unwrap_or(0),
            3 => (again.unwrap_or(0) + random.below(40) as u32).min(limit - 1),
            _ => random.below(limit as usize) as u32,
        };
        asked.push(number);
    }
    asked
}

impl Question {
    /// One that is good where the payload is read and has a submesh, of so many points.
    pub fn good(random: &mut Random, payload: &[u8], count: usize) -> Question {
        let meshes = parse_meshes(payload).reading.unwrap_or_default();
        let number = random.below(records(payload).max(1) as usize) as u32;
        let asked = match points(&meshes, number) {
            0 => Vec::new(),
            limit => some(random, count, limit),
        };
        Question { number, asked }
    }

    /// Makes it wrong in one way. A later fault leaves the earlier ones.
    pub fn spoil(&mut self, random: &mut Random, payload: &[u8], fault: Fault) {
        let count = records(payload);
        match fault {
            Fault::NoRecord => self.number = random.pick(&[count, count + 1, u32::MAX]),
            Fault::TooMany => {
                let missing = (MOST_ASKED + 1).saturating_sub(self.asked.len());
                self.asked.extend(vec![0; missing]);
            }
            Fault::Past => {
                let meshes = parse_meshes(payload).reading.unwrap_or_default();
                let limit = points(&meshes, self.number);
                let place = random.below(self.asked.len() + 1);
                let number = random.pick(&[limit, limit + 1, u32::MAX]);
                self.asked.insert(place, number);
            }
        }
    }
}
