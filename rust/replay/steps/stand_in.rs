//! Stands in for the model's stepping engine while it is developed.

use crate::walk::{self, Course, View};
use crate::entries;
use balcumentri::{Access, Answer, Fault, Hart, Image, Kind, Read};

#[derive(Clone, Copy, Debug, PartialEq, Eq)]
pub struct Place {
    hart: Hart,
    access: Access,
    base: u64,
    length: usize,
    count: usize,
    reads: [Read; 35],
    end: Option<Answer>,
    next: Option<Next>,
}

#[derive(Clone, Copy, Debug, PartialEq, Eq)]
pub struct Next {
    pub stage: u64,
    pub level: u64,
    pub address: u64,
}

#[derive(Clone, Copy, Debug, PartialEq, Eq)]
pub struct Press {
    pub shown: Option<Read>,
    pub answer: Pressed,
}

#[derive(Clone, Copy, Debug, PartialEq, Eq)]
pub enum Pressed {
    Going,
    Ended(Answer),
    Refused(u64),
}

pub trait Start {
    fn start(&self, image: Image<'_>, access: Access) -> Place;
}

impl Start for Hart {
    fn start(&self, image: Image<'_>, access: Access) -> Place {
        let translation = self.translate(image, access);
        let mut place = Place {
            hart: *self,
            access,
            base: image.base,
            length: image.bytes.len(),
            count: 0,
            reads: [Read::default(); 35],
            end: None,
            next: None,
        };
        if translation.reads().is_empty() {
            place.end = Some(translation.answer());
        } else {
            place.settle();
        }
        place
    }
}

impl Place {
    pub fn end(&self) -> Option<Answer> {
        self.end
    }
    pub fn reads(&self) -> &[Read] {
        &self.reads[..self.count]
    }
    pub fn next(&self) -> Option<Next> {
        self.next
    }
    pub fn press(&mut self, image: Image<'_>) -> Press {
        let refused = |number| Press { shown: None, answer: Pressed::Refused(number) };
        let (base, length) = (image.base, image.bytes.len());
        if length > 0x400_0000 || base % 0x1000 != 0 || length % 0x1000 != 0
            || base as u128 + length as u128 > 1 << 56 {
            return refused(1);
        }
        if (base, length) != (self.base, self.length) {
            return refused(6);
        }
        if let Some(end) = self.end {
            return Press { shown: None, answer: Pressed::Ended(end) };
        }
        let next = self.next.take().unwrap();
        let at = (next.address - base) as usize;
        let value = u64::from_le_bytes(image.bytes[at..at + 8].try_into().unwrap());
        let read = Read { stage: next.stage, level: next.level, address: next.address, value };
        self.reads[self.count] = read;
        self.count += 1;
        self.settle();
        let answer = self.end.map_or(Pressed::Going, Pressed::Ended);
        Press { shown: Some(read), answer }
    }

    fn inside(&self, address: u64, width: u64) -> bool {
        address >= self.base && address - self.base + width <= self.length as u64
    }

    fn settle(&mut self) {
        let view = View::of_access(&self.hart, self.access).unwrap();
        let walk = walk::follow(&view, &self.reads[..self.count], Course::Going);
        let kind = match self.access.kind { Kind::Fetch => 0, Kind::Load => 1, Kind::Store => 2 };
        let fault = |causes: [u64; 3], second, word| Some(Answer::Fault(Fault {
            cause: causes[kind], value: self.access.address, second, word, flag: view.mode.is_guest(),
        }));
        let (page, guest, access) = ([12, 13, 15], [20, 21, 23], [1, 5, 7]);
        self.end = match &walk.end {
            None => {
                let next = entries::next(&walk).unwrap();
                let address = next.step.machine.unwrap();
                let stage = if next.stage.part.is_first() { 1 } else { 2 };
                self.next = Some(Next { stage, level: next.step.level, address });
                if self.inside(address, 8) { None } else { fault(access, 0, 0) }
            }
            Some(Ok(address)) if self.inside(*address, self.access.width) => Some(Answer::Address(*address)),
            Some(Ok(_)) => fault(access, 0, 0),
            Some(Err(stop)) => {
                let text = stop.to_string();
                let number = |text: &str| {
                    let digits: String = text.chars().take_while(char::is_ascii_hexdigit).collect();
                    u64::from_str_radix(&digits, 16).unwrap() >> 2
                };
                if let Some(rest) = text.strip_prefix("second stage for the guest entry at ") {
                    fault(guest, number(rest), 0x3000)
                } else if let Some(rest) = text.strip_prefix("second stage for the access at ") {
                    fault(guest, number(rest), 0)
                } else {
                    fault(page, 0, 0)
                }
            }
        };
        if self.end.is_some() {
            self.next = None;
        }
    }
}
