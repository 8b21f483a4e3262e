//! A program about a subject, a memory and a good machine, such that the run comes to the subject and
//! that ends as its case wants.

use super::aim::{aim, Site};
use super::cases::Case;
use super::code::{code, Code};
use super::reach::{accessed, reach};
use super::Situation;
use crate::checks::listing::lead;
use crate::image::Image;
use crate::prng::Prng;
use crate::question::run::{Answer, Question, ROOM};
use crate::question::Question as _;
use crate::steps::scene::{fill, machine, Scene};
use crate::walk::walk;

const TRIES: usize = 200;
const BASE: u32 = 0x1000;
const MEMORY_BASE: u32 = 0x2000_0000;
const PC: u8 = 15;
const AL: u8 = 14;
/// No access is longer than 14 words.
const LEAST: u32 = 64;
/// What the program's own pointer needs.
const OWN: u32 = 20;

pub struct Subject {
    pub place: u32,
    pub address: u32,
    /// The steps before it.
    pub before: u32,
}

/// None where chance gives none.
pub fn some(prng: &mut Prng, case: &Case, situation: Situation) -> Option<(Subject, Question)> {
    (0..TRIES).find_map(|_| one(prng, case, situation))
}

fn one(prng: &mut Prng, case: &Case, situation: Situation) -> Option<(Subject, Question)> {
    let mut code = code(prng, case, situation)?;
    let base = prng.pick(&[BASE, BASE, BASE + 2, 0, 0xFFFF_FF00]);
    let address = base.wrapping_add(code.at() as u32);
    direct(prng, &mut code)?;
    let goals: Vec<u32> = code.goals().iter().map(|&at| base.wrapping_add(at as u32)).collect();
    let mut scene = ground(prng);
    let site = Site { record: code.record(), address, goals: &goals };
    aim(prng, case, &site, &mut scene);
    let access = accessed(site.record, address, |register| scene.get(register));
    let reached = access.map(|access| reach(access, scene.base, scene.memory.len()));
    if case.reach.is_some() && case.reach != reached {
        return None;
    }
    let at_subject = prng.once_in(8) && code.sets.is_none();
    set_up(prng, &mut code, &mut scene);
    scene.set(PC, if at_subject { address } else { base });
    let ruled = rule(prng, &mut code, &scene, base, at_subject, situation)?;
    let before = if at_subject { 0 } else { code.subject as u32 };
    let place = code.records[..code.subject].iter().map(Vec::len).sum::<usize>() as u32;
    let subject = Subject { place, address, before };
    let mut question = question(&code, scene, base, at_subject);
    if !ends_so(case, &subject, &question) {
        return None;
    }
    if situation == Situation::Failed {
        code.rule(ruled ^ 1);
        question.listing = code.records.concat();
        wait(&mut question, &code, at_subject);
    }
    Some((subject, question))
}

/// Where a direct branch goes; None where it can't.
fn direct(prng: &mut Prng, code: &mut Code) -> Option<()> {
    let (at, mut goals) = (code.at(), code.goals());
    if code.record()[0] == 0x13 {
        goals.retain(|goal| (at + 4..=at + 4 + 126).contains(goal));
    }
    if goals.is_empty() {
        return None;
    }
    lead(&mut code.records[code.subject], at, prng.pick(&goals));
    Some(())
}

/// Memory anywhere, and any machine with nothing waiting.
fn ground(prng: &mut Prng) -> Scene {
    let length = LEAST + prng.below(64);
    let mut memory = vec![0; length as usize];
    fill(prng, &mut memory);
    let base = match prng.below(10) {
        0 => 0,
        1 => length.wrapping_neg(),
        2..=4 => MEMORY_BASE + 1 + prng.below(3),
        _ => MEMORY_BASE,
    };
    let mut scene = Scene { image: Image::FRESH, base, memory };
    machine(prng, &mut scene);
    scene.image.wait(&[]);
    scene
}

/// The program's own registers, and a register of the subject's that the program sets.
fn set_up(prng: &mut Prng, code: &mut Code, scene: &mut Scene) {
    scene.set(code.spare.pointer, scene.end().wrapping_sub(OWN));
    if let Some((at, register)) = code.sets {
        let [a, b, c, d] = scene.get(register).to_le_bytes();
        code.records[at][4..].copy_from_slice(&[a, b]);
        code.records[at + 1][4..].copy_from_slice(&[c, d]);
        scene.set(register, prng.word());
    }
}

/// Lets a condition that passes rule the subject in its block, and gives it.
fn rule(
    prng: &mut Prng,
    code: &mut Code,
    scene: &Scene,
    base: u32,
    at_subject: bool,
    situation: Situation,
) -> Option<u8> {
    let block = match code.block {
        Some(block) => block,
        None => return Some(AL),
    };
    let mut flags = second::image::decode(&scene.image.bytes())?;
    if !at_subject {
        let (mut memory, before) = (scene.memory.clone(), code.records[..block.it].concat());
        let budget = block.it as u32;
        second::run::run(&mut flags, &before, base, &mut memory, scene.base, budget);
    }
    let highest = if situation == Situation::Failed { AL } else { AL + 1 };
    let passing: Vec<u8> = (0..highest).filter(|&condition| flags.passes(condition)).collect();
    let condition = prng.pick(&passing);
    code.rule(condition);
    Some(condition)
}

fn question(code: &Code, scene: Scene, listing_base: u32, at_subject: bool) -> Question {
    let Scene { image, base, memory } = scene;
    let mut question = Question {
        image: image.bytes(),
        listing: code.records.concat(),
        listing_base,
        memory,
        memory_base: base,
        budget: 0,
        room: ROOM,
    };
    wait(&mut question, code, at_subject);
    question
}

/// A run that begins at the subject has the layout's conditions waiting.
fn wait(question: &mut Question, code: &Code, at_subject: bool) {
    let item = walk(&question.listing).nth(code.subject);
    if let (true, Some(item), Some(mut image)) = (at_subject, item, Image::of(&question.image)) {
        image.wait(&item.conditions);
        question.image = image.bytes();
    }
}

/// It is the second program that says so, but what it answers is compared.
fn ends_so(case: &Case, subject: &Subject, question: &Question) -> bool {
    let (mut question, mut answer) = (question.clone(), Answer::default());
    question.budget = subject.before + 1;
    question.ask_second(&mut answer);
    match answer.ran() {
        Some([_, _, count]) if case.number == 0 => count == subject.before + 1,
        ran => ran == Some([case.number, subject.place, subject.before]),
    }
}
