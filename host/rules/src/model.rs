//! The model device: one request, one answer. "Where `fake.rs` panics it answers 0x8001 and changes nothing."

use crate::wire::{self, STATUS_BAD, STATUS_OK, u32_at};
use crate::{BAD_LENGTH, FIT, INVALID_PARAM, PAGE};

#[derive(Clone, Debug, PartialEq, Eq)]
pub struct Model {
    /// the records of jacks, streams, maps
    pub tables: [Vec<Vec<u8>>; 3],
    /// each stream's set parameters, all 24 bytes
    pub params: Vec<Option<[u8; 24]>>,
    /// each stream's count of payload bytes, modulo 2^64
    pub played: Vec<u64>,
}

impl Model {
    /// From three tables as they stand in an answer.
    pub fn new(tables: [&[u8]; 3]) -> Result<Self, u8> {
        if (0..3).any(|t| !tables[t].len().is_multiple_of(wire::SIZES[t])) {
            return Err(BAD_LENGTH);
        }
        let rows = |t: usize| tables[t].chunks(wire::SIZES[t]).map(<[u8]>::to_vec).collect();
        let model = Model {
            tables: [rows(0), rows(1), rows(2)],
            params: vec![None; tables[1].len() / wire::PCM],
            played: vec![0; tables[1].len() / wire::PCM],
        };
        if model.consistent() { Ok(model) } else { Err(INVALID_PARAM) }
    }

    pub fn consistent(&self) -> bool {
        (0..3).all(|t| self.tables[t].len() <= FIT[t] as usize)
    }

    /// Answers into the page and tells the answer's length.
    pub fn control(&mut self, request: &[u8], page: &mut [u8]) -> Result<usize, u8> {
        if page.len() != PAGE {
            return Err(BAD_LENGTH);
        }
        if !self.consistent() {
            return Err(INVALID_PARAM);
        }
        let answer = self.handle(request).unwrap_or(wire::words(&[STATUS_BAD]));
        page[..answer.len()].copy_from_slice(&answer);
        Ok(answer.len())
    }

    /// The answer, or none where the model of the Rust panics.
    fn handle(&mut self, request: &[u8]) -> Option<Vec<u8>> {
        if request.len() < 4 {
            return None;
        }
        let code = u32_at(request, 0);
        match code {
            wire::SET_PARAMS => {
                let all: [u8; 24] = request.try_into().ok()?;
                *self.params.get_mut(u32_at(request, 4) as usize)? = Some(all);
            }
            wire::PREPARE | wire::RELEASE | wire::START | wire::STOP if request.len() == 8 => {}
            _ => {
                let table = wire::QUERIES.iter().position(|&q| q == code)?;
                return self.query(table, request);
            }
        }
        Some(wire::words(&[STATUS_OK]))
    }

    fn query(&self, table: usize, request: &[u8]) -> Option<Vec<u8>> {
        if request.len() != 16 || u32_at(request, 12) as usize != wire::SIZES[table] {
            return None;
        }
        let start = u32_at(request, 4) as u64;
        let end = start + u32_at(request, 8) as u64;
        if end > self.tables[table].len() as u64 {
            return None;
        }
        let rows = &self.tables[table][start as usize..end as usize];
        Some([wire::words(&[STATUS_OK]), rows.concat()].concat())
    }

    /// The stream of a good transfer request.
    fn stream_of(&self, request: &[u8]) -> Option<usize> {
        let stream = u32_at(request.get(..4)?, 0) as usize;
        (stream < self.played.len()).then_some(stream)
    }

    /// The 8-byte status into the answer.
    pub fn transfer(&mut self, request: &[u8], answer: &mut [u8]) -> Result<(), u8> {
        if answer.len() < 8 {
            return Err(BAD_LENGTH);
        }
        if !self.consistent() {
            return Err(INVALID_PARAM);
        }
        let mut status = STATUS_BAD;
        if let Some(stream) = self.stream_of(request) {
            let count = &mut self.played[stream];
            *count = count.wrapping_add(request.len() as u64 - 4);
            status = STATUS_OK;
        }
        answer[..8].copy_from_slice(&wire::words(&[status, 0]));
        Ok(())
    }

    /// The payload's offset and length in a good transfer request.
    pub fn payload(&self, request: &[u8]) -> Option<(u64, u64)> {
        self.stream_of(request)?;
        Some((4, request.len() as u64 - 4))
    }
}
