//! A policy shaped like the HIPAA Privacy Rule's norms about disclosures, and the log of a hospital.
//!
//! For every disclosure, every purpose that it is labelled with and every attribute of a patient that it is tagged with:
//! the label and the tag are right, any of eleven norms permits it, and none of four norms denies it.

mod log;

pub use log::hospital_log;

use crate::words::{all_of, any_of, at_most, constant, exists, fails, for_all, holds};

/// The predicates, by number.
#[derive(Clone, Copy)]
enum Predicate {
    /// Sender, receiver, message, time.
    Send,
    /// Message, its purpose.
    Purpose,
    /// Message, patient, attribute.
    Tagged,
    /// Message, patient, attribute, purpose: label and tag are right. A person tells.
    Contains,
    /// Principal, role.
    InRole,
    /// Attribute, the wider one.
    AttributeIn,
    /// Purpose, the wider one.
    PurposeIn,
    /// Principal, patient, time. A person tells.
    Treats,
    /// Patient, receiver, attribute, time.
    Consent,
    /// Patient, receiver, time: a consent is taken back.
    Revoked,
    /// Sender, patient, message: the sender believes that the disclosure is needed. A person tells.
    Believes,
    /// Patient, receiver, time: a court's order.
    Order,
    /// Receiver, patient, time.
    Request,
    /// Patient, relative.
    Family,
    /// Patient, sender, time: the patient is told of disclosures.
    Notified,
    /// Patient, receiver, time: the patient objects.
    Opposes,
    /// Patient, time of death.
    Died,
    /// Message, purpose: no more than the purpose needs. A person tells.
    Minimal,
}

use Predicate::*;

/// For each predicate its arity, the mask of its inputs, and whether it is complete: the hospital has the roles, the two
/// hierarchies, the consents, orders, relatives and deaths on file. All else may still come.
pub const TABLE: [i32; 54] = [
    4, 0, 0, 2, 1, 0, 3, 1, 0, 4, 15, 0, 2, 0, 1, 2, 1, 1, 2, 1, 1, 3, 7, 0, 4, 0, 1, //
    3, 0, 0, 3, 7, 0, 3, 0, 1, 3, 0, 0, 2, 3, 1, 3, 0, 0, 3, 0, 0, 2, 0, 1, 2, 3, 0,
];

/// The purposes that norms speak of; those of messages are narrower ones.
mod purpose {
    pub const TREATMENT: i32 = 0;
    pub const PAYMENT: i32 = 1;
    pub const OPERATIONS: i32 = 2;
    pub const LAW: i32 = 3;
    pub const JUDICIAL: i32 = 4;
    pub const RESEARCH: i32 = 5;
    pub const CAUSE_OF_DEATH: i32 = 6;
    pub const MARKETING: i32 = 7;
}

/// The roles.
mod role {
    pub const PROVIDER: i32 = 0;
    pub const INSURER: i32 = 1;
    pub const POLICE: i32 = 2;
    pub const COURT: i32 = 3;
    pub const CORONER: i32 = 4;
    pub const ENTITY: i32 = 5;
}

/// The attributes that norms speak of; those of messages are narrower ones.
mod attribute {
    pub const HEALTH: i32 = 0;
    pub const NOTES: i32 = 1;
}

// The variables: the disclosure, its purpose, patient and attribute. A norm's own ones follow.
const SENDER: [i32; 2] = [1, 0];
const RECEIVER: [i32; 2] = [1, 1];
const MESSAGE: [i32; 2] = [1, 2];
const TIME: [i32; 2] = [1, 3];
const PURPOSE: [i32; 2] = [1, 4];
const PATIENT: [i32; 2] = [1, 5];
const ATTRIBUTE: [i32; 2] = [1, 6];
const FIRST: [i32; 2] = [1, 7];
const SECOND: [i32; 2] = [1, 8];

fn is(predicate: Predicate, terms: &[[i32; 2]]) -> Vec<i32> {
    holds(predicate as i32, terms)
}

fn is_not(predicate: Predicate, terms: &[[i32; 2]]) -> Vec<i32> {
    fails(predicate as i32, terms)
}

fn purpose_is(wider: i32) -> Vec<i32> {
    is(PurposeIn, &[PURPOSE, constant(wider)])
}

fn receiver_is(role: i32) -> Vec<i32> {
    is(InRole, &[RECEIVER, constant(role)])
}

/// A time is not after the disclosure.
fn before(time: [i32; 2]) -> Vec<i32> {
    at_most(time, 0, TIME)
}

/// A time is at most so many days before the disclosure.
fn within(days: i32, time: [i32; 2]) -> Vec<i32> {
    at_most(TIME, -days, time)
}

/// The patient consented to an attribute's disclosure to the receiver, at a time before it.
fn consented(attribute: [i32; 2], time: [i32; 2]) -> [Vec<i32>; 2] {
    [is(Consent, &[PATIENT, RECEIVER, attribute, time]), before(time)]
}

/// The policy.
pub fn hospital_policy() -> Vec<i32> {
    let right = is(Contains, &[MESSAGE, PATIENT, ATTRIBUTE, PURPOSE]);
    let norms = all_of(&[vec![right, any_of(&permitting())], denying()].concat());
    let tagged = for_all(2, &is(Tagged, &[MESSAGE, PATIENT, ATTRIBUTE]), &norms);
    let labelled = for_all(1, &is(Purpose, &[MESSAGE, PURPOSE]), &tagged);
    for_all(4, &is(Send, &[SENDER, RECEIVER, MESSAGE, TIME]), &labelled)
}

/// The norms of which one has to hold.
fn permitting() -> Vec<Vec<i32>> {
    let any_role = is(InRole, &[RECEIVER, FIRST]);
    // A provider treats the patient.
    let treatment = exists(
        1,
        &all_of(&[any_role.clone(), at_most(FIRST, 0, constant(role::PROVIDER))]),
        &all_of(&[purpose_is(purpose::TREATMENT), is(Treats, &[RECEIVER, PATIENT, TIME])]),
    );
    // A covered entity is paid by an insurer.
    let payment = exists(
        1,
        &all_of(&[
            is(InRole, &[SENDER, constant(role::ENTITY)]),
            any_role.clone(),
            at_most(FIRST, 0, constant(role::INSURER)),
        ]),
        &all_of(&[purpose_is(purpose::PAYMENT), is(Minimal, &[MESSAGE, PURPOSE])]),
    );
    // Operations between principals of one role.
    let operations = exists(
        1,
        &all_of(&[any_role.clone(), is(InRole, &[SENDER, FIRST])]),
        &all_of(&[
            purpose_is(purpose::OPERATIONS),
            is(Believes, &[SENDER, PATIENT, MESSAGE]),
        ]),
    );
    // A consent of the last year, not taken back before the disclosure.
    let consent = exists(
        1,
        &all_of(&[&consented(ATTRIBUTE, FIRST)[..], &[within(365, FIRST)]].concat()),
        &for_all(
            1,
            &all_of(&[is(Revoked, &[PATIENT, RECEIVER, SECOND]), at_most(FIRST, 0, SECOND)]),
            &at_most(TIME, 1, SECOND),
        ),
    );
    // A consent to a wider attribute, for research.
    let wide_consent = exists(
        2,
        &all_of(&[&[is(AttributeIn, &[ATTRIBUTE, FIRST])], &consented(FIRST, SECOND)[..]].concat()),
        &all_of(&[purpose_is(purpose::RESEARCH), is(Minimal, &[MESSAGE, PURPOSE])]),
    );
    // The police has an order of the last 90 days.
    let law = exists(
        1,
        &all_of(&[
            receiver_is(role::POLICE),
            is(Order, &[PATIENT, RECEIVER, FIRST]),
            before(FIRST),
            within(90, FIRST),
        ]),
        &purpose_is(purpose::LAW),
    );
    // A court asked for it, and the patient was told.
    let judicial = exists(
        1,
        &all_of(&[is(Request, &[RECEIVER, PATIENT, FIRST]), before(FIRST)]),
        &all_of(&[
            receiver_is(role::COURT),
            purpose_is(purpose::JUDICIAL),
            exists(
                1,
                &all_of(&[is(Notified, &[PATIENT, SENDER, SECOND]), at_most(FIRST, 0, SECOND)]),
                &before(SECOND),
            ),
        ]),
    );
    // A relative, and the patient did not object.
    let family = exists(
        1,
        &all_of(&[is(Family, &[PATIENT, RECEIVER]), any_role]),
        &for_all(
            1,
            &all_of(&[is(Opposes, &[PATIENT, RECEIVER, SECOND]), before(SECOND)]),
            &[0],
        ),
    );
    let marketing = exists(
        1,
        &all_of(&consented(constant(attribute::HEALTH), FIRST)),
        &purpose_is(purpose::MARKETING),
    );
    let coroner = exists(
        1,
        &all_of(&[receiver_is(role::CORONER), is(Died, &[PATIENT, FIRST]), before(FIRST)]),
        &purpose_is(purpose::CAUSE_OF_DEATH),
    );
    let own = all_of(&[at_most(RECEIVER, 0, PATIENT), at_most(PATIENT, 0, RECEIVER)]);
    vec![
        treatment,
        payment,
        operations,
        consent,
        wide_consent,
        law,
        judicial,
        family,
        marketing,
        coroner,
        own,
    ]
}

/// The norms all of which have to hold.
fn denying() -> Vec<Vec<i32>> {
    let consented_to = |attribute| exists(1, &all_of(&consented(attribute, FIRST)), &[1]);
    let notes = constant(attribute::NOTES);
    vec![
        // Notes of psychotherapy need a consent of their own, marketing needs one to this attribute.
        any_of(&[is_not(AttributeIn, &[ATTRIBUTE, notes]), consented_to(notes)]),
        any_of(&[
            is_not(PurposeIn, &[PURPOSE, constant(purpose::MARKETING)]),
            consented_to(ATTRIBUTE),
        ]),
        // After each consent taken back there is a later one.
        for_all(
            1,
            &all_of(&[is(Revoked, &[PATIENT, RECEIVER, FIRST]), before(FIRST)]),
            &exists(1, &all_of(&consented(ATTRIBUTE, SECOND)), &at_most(FIRST, 0, SECOND)),
        ),
        // But for treatment, the patient is told within 60 days.
        any_of(&[
            purpose_is(purpose::TREATMENT),
            exists(
                1,
                &all_of(&[is(Notified, &[PATIENT, SENDER, FIRST]), at_most(TIME, 0, FIRST)]),
                &at_most(FIRST, -60, TIME),
            ),
        ]),
    ]
}
