//! The log of a hospital: what it has on file, and then its disclosures in the order of time, with what belongs to them.

use std::collections::BTreeSet;

use inputs::Random;

use super::{attribute, Predicate, Predicate::*, TABLE};

/// Roles, wider purposes and wider attributes are numbered from 0.
const ROLES: usize = 6;
const PURPOSES: usize = 8;
const ATTRIBUTES: usize = 2;

/// The time of the last entry on file.
const AFTER_FILE: i32 = 400;

/// Messages have narrower purposes and attributes; these are so many, numbered behind the wider ones.
const NARROWER: usize = 3;

/// A log of exactly so many rows, at least 64.
///
/// A quarter is on file: roles of principals, the two hierarchies, consents, orders, relatives and deaths. A disclosure
/// takes some five rows: it is sent, labelled with a purpose and tagged with one or two attributes, and with some of them
/// a person told whether the label is right, the receiver treats the patient, or the message is minimal; requests, notices,
/// objections and consents taken back come in between. So about every seventh row is a disclosure. There are more
/// principals and patients with more rows.
pub fn hospital_log(random: &mut Random, rows: usize) -> Vec<i32> {
    let mut log = Log {
        principals: rows / 20,
        patients: rows / 12,
        rows,
        seen: BTreeSet::new(),
        words: Vec::new(),
        consents: Vec::new(),
        revoked: BTreeSet::new(),
    };
    log.file(random);
    let mut message = 0;
    while log.seen.len() < rows {
        message += 1;
        log.disclosure(random, message);
    }
    log.words
}

struct Log {
    principals: usize,
    patients: usize,
    /// How many rows are wanted.
    rows: usize,
    seen: BTreeSet<Vec<i32>>,
    words: Vec<i32>,
    /// Patient, receiver and attribute of the consents on file.
    consents: Vec<[i32; 3]>,
    /// Patients and receivers of the consents taken back.
    revoked: BTreeSet<[i32; 2]>,
}

impl Log {
    /// Adds a row, unless its atom is there or the log is full.
    fn add(&mut self, predicate: Predicate, truth: bool, arguments: &[i32]) {
        let number = predicate as i32;
        debug_assert_eq!(arguments.len(), TABLE[3 * number as usize] as usize);
        if self.seen.len() < self.rows && self.seen.insert([&[number], arguments].concat()) {
            self.words.extend([number, i32::from(truth)]);
            self.words.extend(arguments);
            self.words.resize(8 * self.seen.len(), 0);
        }
    }

    fn principal(&self, random: &mut Random) -> i32 {
        random.below(self.principals) as i32
    }

    /// Patients are numbered behind the principals; a few disclosures go to patients.
    fn patient(&self, random: &mut Random) -> i32 {
        (self.principals + random.below(self.patients)) as i32
    }

    /// What the hospital has on file.
    fn file(&mut self, random: &mut Random) {
        for purpose in 0..PURPOSES * NARROWER {
            self.add(
                PurposeIn,
                true,
                &[(PURPOSES + purpose) as i32, (purpose % PURPOSES) as i32],
            );
        }
        for attribute in 0..ATTRIBUTES * NARROWER {
            self.add(
                AttributeIn,
                true,
                &[(ATTRIBUTES + attribute) as i32, (attribute % ATTRIBUTES) as i32],
            );
        }
        for principal in 0..self.principals {
            self.add(InRole, true, &[principal as i32, (principal % ROLES) as i32]);
        }
        let start = self.seen.len();
        while 4 * self.seen.len() < self.rows.max(4 * (start + 16)) {
            let (patient, receiver) = (self.patient(random), self.principal(random));
            let time = random.below(AFTER_FILE as usize) as i32;
            match random.below(8) {
                0 => self.add(Order, true, &[patient, receiver, time]),
                1 => self.add(Family, true, &[patient, receiver]),
                2 => self.add(Died, true, &[patient, time]),
                _ => {
                    let wider = random.below(ATTRIBUTES) as i32;
                    let attribute = narrower(random, ATTRIBUTES, wider);
                    self.add(Consent, true, &[patient, receiver, attribute, time]);
                    self.add(Consent, true, &[patient, receiver, wider, time]);
                    self.consents.push([patient, receiver, attribute]);
                }
            }
        }
    }

    /// One disclosure with what belongs to it. It breaks no norm: psychotherapy notes and marketing need a consent on
    /// file, and nothing is sent where a consent was taken back.
    fn disclosure(&mut self, random: &mut Random, message: i32) {
        let time = AFTER_FILE + message;
        let sender = self.principal(random);
        let consent = random.once_in(2).then(|| random.pick(&self.consents));
        let [patient, receiver, attribute] = consent.unwrap_or_else(|| {
            let (patient, receiver) = (self.patient(random), self.principal(random));
            let receiver = if random.once_in(10) { patient } else { receiver };
            [patient, receiver, narrower(random, ATTRIBUTES, attribute::HEALTH)]
        });
        if self.revoked.contains(&[patient, receiver]) {
            return;
        }
        let wider = match consent {
            Some(_) => random.below(PURPOSES) as i32,
            None => random.below(PURPOSES - 1) as i32,
        };
        let purpose = narrower(random, PURPOSES, wider);
        if random.once_in(10) {
            self.add(Request, true, &[receiver, patient, time - 5]);
        }
        self.add(Send, true, &[sender, receiver, message, time]);
        self.add(Purpose, true, &[message, purpose]);
        let health = narrower(random, ATTRIBUTES, attribute::HEALTH);
        let second = consent.is_none() && random.once_in(2);
        for attribute in [attribute].into_iter().chain(second.then_some(health)) {
            self.add(Tagged, true, &[message, patient, attribute]);
            if random.once_in(2) {
                self.add(Contains, true, &[message, patient, attribute, purpose]);
            }
        }
        let likely = !random.once_in(5);
        match random.below(6) {
            0 | 1 => self.add(Treats, likely, &[receiver, patient, time]),
            2 => self.add(Minimal, likely, &[message, purpose]),
            3 => self.add(Believes, likely, &[sender, patient, message]),
            4 => self.add(Opposes, likely, &[patient, receiver, time - 1]),
            _ => {
                self.add(Revoked, true, &[patient, receiver, time + 1]);
                self.revoked.insert([patient, receiver]);
            }
        }
        if random.once_in(2) {
            self.add(Notified, true, &[patient, sender, time + 20]);
        }
    }
}

/// A purpose or an attribute in a wider one.
fn narrower(random: &mut Random, wider_ones: usize, wider: i32) -> i32 {
    (wider_ones * (1 + random.below(NARROWER))) as i32 + wider
}
