//! The segment's calls: every check comes before the first byte written.

use crate::inventory::{request, update};
use crate::notes::{Notes, Step};
use crate::page::{self, slot, Kind, Slot, PAGE};
use store::{Answer, Found, Store, DONE};

const SIZE: u64 = 1;
const NOPAGE: u64 = 2;
const LONG: u64 = 3;
const DAMAGED: u64 = 4;
const NONE: u64 = 5;
const FORWARDED: u64 = 6;
const FULL: u64 = 7;
const STALE: u64 = 8;

pub struct Model {
    segment: Vec<u8>,
    inventory: Vec<u8>,
    pub notes: Notes,
}

#[derive(Clone, Copy)]
struct Place {
    page: usize,
    slot: usize,
}

impl Place {
    fn id(&self) -> u64 {
        self.page as u64 * 65536 + self.slot as u64
    }
}

/// What a call puts into a record: bytes of the caller, or zeros after the old bytes.
#[derive(Clone, Copy)]
enum Content<'a> {
    Given(&'a [u8]),
    Old(&'a [u8]),
}

fn answer<T>(result: &Result<T, u64>) -> Answer {
    result.as_ref().err().map_or(DONE, |&number| Answer::Number(number))
}

impl Model {
    pub fn new(segment: &[u8], inventory: &[u8]) -> Model {
        Model { segment: segment.to_vec(), inventory: inventory.to_vec(), notes: Notes::new() }
    }

    fn n(&self) -> usize {
        self.segment.len() / PAGE
    }

    fn page(&self, page: usize) -> &[u8] {
        &self.segment[page * PAGE..(page + 1) * PAGE]
    }

    fn lend(&mut self, page: usize) -> (&mut [u8], &mut Notes) {
        (&mut self.segment[page * PAGE..(page + 1) * PAGE], &mut self.notes)
    }

    fn slot(&self, place: Place) -> Slot {
        slot(self.page(place.page), place.slot)
    }

    fn data(&self, place: Place) -> &[u8] {
        let (offset, length) = self.slot(place).data();
        &self.page(place.page)[offset..offset + length]
    }

    fn refuse<T>(&mut self, number: u64, fault: u32, step: Option<Step>) -> Result<T, u64> {
        self.notes.fault(fault);
        if let Some(step) = step {
            self.notes.step(step);
        }
        Err(number)
    }

    fn check_segment(&self) -> Result<(), u64> {
        let whole = self.segment.len() % PAGE == 0 && self.n() <= 32527;
        if whole { Ok(()) } else { Err(SIZE) }
    }

    pub(crate) fn check_both(&self) -> Result<(), u64> {
        self.check_segment()?;
        if self.inventory.len() == PAGE { Ok(()) } else { Err(SIZE) }
    }

    fn check_new_size(&mut self, size: u64) -> Result<usize, u64> {
        if size > 16364 { self.refuse(LONG, 10, None) } else { Ok(size as usize) }
    }

    fn check_sound(&mut self, page: usize, step: Step) -> Result<(), u64> {
        match page::unsound(self.page(page)) {
            None => Ok(()),
            Some(rule) => {
                self.notes.step(rule);
                let fault = if rule == Step::UnsoundEmptied { 16 } else { 14 };
                self.refuse(DAMAGED, fault, Some(step))
            }
        }
    }

    /// The slot below the count that an id names.
    fn root(&mut self, id: u64) -> Result<Place, u64> {
        if id / 65536 >= self.n() as u64 {
            return self.refuse(NOPAGE, 13, None);
        }
        let place = Place { page: (id / 65536) as usize, slot: (id % 65536) as usize };
        self.check_sound(place.page, Step::RootUnsound)?;
        match page::count(self.page(place.page)) {
            0 => self.refuse(NONE, 11, Some(Step::SlotFresh)),
            count if place.slot >= count => self.refuse(NONE, 11, Some(Step::SlotPast)),
            _ => Ok(place),
        }
    }

    /// As `root`, for a call that changes the record.
    fn changed_root(&mut self, id: u64) -> Result<Place, u64> {
        let root = self.root(id)?;
        match self.slot(root).kind {
            Kind::Free => self.refuse(NONE, 11, Some(Step::SlotFree)),
            Kind::Target => self.refuse(FORWARDED, 11, None),
            _ => Ok(root),
        }
    }

    /// The target of a redirect.
    fn follow(&mut self, root: Place) -> Result<Place, u64> {
        let named = self.slot(root).id;
        if named / 65536 >= self.n() as u64 {
            return self.refuse(DAMAGED, 14, Some(Step::AstrayPast));
        }
        let target = Place { page: (named / 65536) as usize, slot: (named % 65536) as usize };
        if target.page == root.page {
            return self.refuse(DAMAGED, 14, Some(Step::AstrayOwn));
        }
        self.check_sound(target.page, Step::AstrayUnsound)?;
        if target.slot >= page::count(self.page(target.page)) {
            return self.refuse(DAMAGED, 14, Some(Step::AstraySlot));
        }
        if self.slot(target).kind != Kind::Target {
            return self.refuse(DAMAGED, 14, Some(Step::AstrayKind));
        }
        if self.back_id(target) != root.id() {
            return self.refuse(DAMAGED, 14, Some(Step::AstrayBack));
        }
        Ok(target)
    }

    /// The target of a redirect, nothing for an ordinary record.
    fn follow_if_redirect(&mut self, root: Place) -> Result<Option<Place>, u64> {
        if self.slot(root).kind != Kind::Redirect {
            return Ok(None);
        }
        self.follow(root).map(Some)
    }

    fn back_id(&self, target: Place) -> u64 {
        let offset = self.slot(target).offset;
        u64::from_be_bytes(self.page(target.page)[offset..offset + 8].try_into().unwrap())
    }

    /// The page that the inventory names for a new record, once it is sure to have room there.
    fn new_page(&mut self, size: usize, root: Option<Place>, target: Option<Place>) -> Result<usize, u64> {
        let Some(named) = request(&self.inventory, size) else {
            return self.refuse(FULL, 10, Some(Step::FullByNeed));
        };
        if named >= self.n() as u64 {
            return self.refuse(FULL, 13, Some(Step::FullByEntry));
        }
        let named = named as usize;
        self.check_sound(named, Step::NewUnsound)?;
        if root.into_iter().chain(target).any(|place| place.page == named) {
            return self.refuse(STALE, 13, Some(Step::StaleExcluded));
        }
        let (page, notes) = self.lend(named);
        if !page::has_room(page, size, notes) {
            return self.refuse(STALE, 13, Some(Step::StaleNoRoom));
        }
        Ok(named)
    }

    fn update(&mut self, page: usize) {
        let free = page::free_space(self.page(page));
        let n = self.n();
        update(&mut self.inventory, n, page, free, &mut self.notes);
    }

    /// Writes the record's bytes, a target's back id apart.
    fn fill(&mut self, place: Place, content: Content) {
        let (offset, length) = self.slot(place).data();
        let (page, notes) = self.lend(place.page);
        let record = &mut page[offset..offset + length];
        match content {
            Content::Given(bytes) => record.copy_from_slice(bytes),
            Content::Old(bytes) => {
                let kept = bytes.len().min(length);
                notes.fault_if(record[kept..].iter().any(|&byte| byte != 0), 12);
                record[..kept].copy_from_slice(&bytes[..kept]);
                record[kept..].fill(0);
            }
        }
    }

    fn new_record(&mut self, size: u64, content: Content) -> Result<u64, u64> {
        self.check_both()?;
        let size = self.check_new_size(size)?;
        let page = self.new_page(size, None, None)?;
        let place = self.allocate_on(page, size);
        self.fill(place, content);
        self.update(page);
        Ok(place.id())
    }

    fn allocate_on(&mut self, page: usize, size: usize) -> Place {
        let (bytes, notes) = self.lend(page);
        Place { page, slot: page::allocate(bytes, size, notes) }
    }

    /// Gives the record a new size; `given` are its bytes, where the call has them.
    fn change(&mut self, id: u64, size: u64, given: Option<&[u8]>) -> Result<(), u64> {
        self.check_both()?;
        let size = self.check_new_size(size)?;
        let root = self.changed_root(id)?;
        let target = self.follow_if_redirect(root)?;
        let old = self.data(target.unwrap_or(root)).to_vec();
        let content = given.map_or(Content::Old(&old), Content::Given);
        if self.can_relocate(root, size) {
            self.on_root_page(root, target, size, content);
            return Ok(());
        }
        match target.filter(|&target| self.can_relocate(target, size + 8)) {
            Some(target) => self.on_target_page(target, size, content),
            None => self.on_new_page(root, target, size, content)?,
        }
        Ok(())
    }

    fn can_relocate(&mut self, place: Place, size: usize) -> bool {
        let (page, notes) = self.lend(place.page);
        page::can_relocate(page, place.slot, size, notes)
    }

    fn relocate(&mut self, place: Place, size: usize, content: Content) {
        let (page, notes) = self.lend(place.page);
        page::relocate(page, place.slot, size, notes);
        self.fill(place, content);
        self.update(place.page);
    }

    fn on_root_page(&mut self, root: Place, target: Option<Place>, size: usize, content: Content) {
        let copies = matches!(content, Content::Old(bytes) if !bytes.is_empty()) && size > 0;
        self.relocate(root, size, content);
        match target {
            None => self.notes.step(Step::RootFits),
            Some(target) => {
                self.notes.fault_if(copies, 8);
                self.notes.step(Step::MovesHome);
                self.erase_slot(target);
                self.update(target.page);
            }
        }
    }

    fn on_target_page(&mut self, target: Place, size: usize, content: Content) {
        self.notes.step(Step::Stays);
        self.relocate(target, size + 8, content);
    }

    fn on_new_page(&mut self, root: Place, old: Option<Place>, size: usize, content: Content) -> Result<(), u64> {
        let page = self.new_page(size + 8, Some(root), old)?;
        let new = self.allocate_on(page, size + 8);
        page::set_target(self.lend(page).0, new.slot);
        let offset = self.slot(new).offset;
        self.lend(page).0[offset..offset + 8].copy_from_slice(&root.id().to_be_bytes());
        self.fill(new, content);
        self.notes.fault_if(old.is_some() && matches!(content, Content::Old(_)), 8);
        self.name_target(root, old, new);
        self.update(page);
        Ok(())
    }

    /// Turns the root to its new target and frees what it had before.
    fn name_target(&mut self, root: Place, old: Option<Place>, new: Place) {
        let (page, notes) = self.lend(root.page);
        match old {
            None => {
                notes.step(Step::FirstForwarding);
                page::erase_for_redirect(page, root.slot, new.id(), notes);
                self.update(root.page);
            }
            Some(old) => {
                notes.step(Step::SecondForwarding);
                page::set_redirect(page, root.slot, new.id());
                self.erase_slot(old);
                self.update(old.page);
            }
        }
    }

    fn erase_slot(&mut self, place: Place) {
        let (page, notes) = self.lend(place.page);
        page::erase(page, place.slot, notes);
    }

    fn erase(&mut self, id: u64) -> Result<(), u64> {
        self.check_both()?;
        let root = self.changed_root(id)?;
        let target = self.follow_if_redirect(root)?;
        self.erase_slot(root);
        if let Some(target) = target {
            self.erase_slot(target);
            self.update(target.page);
        }
        self.update(root.page);
        Ok(())
    }

    fn read(&mut self, id: u64) -> Result<(u64, u64), u64> {
        self.check_segment()?;
        let root = self.root(id)?;
        let place = match self.slot(root).kind {
            Kind::Free => {
                // The Rust answers here as document 01 does.
                self.notes.step(Step::SlotFree);
                return Err(NONE);
            }
            Kind::Plain => (root, Step::ReadPlain),
            Kind::Target => (root, Step::ReadTarget),
            Kind::Redirect => (self.follow(root)?, Step::ReadRedirect),
        };
        self.notes.step(place.1);
        let (offset, length) = self.slot(place.0).data();
        Ok(((place.0.page * PAGE + offset) as u64, length as u64))
    }

    fn scan_all(&mut self, found: &mut Vec<Found>) -> Result<(), u64> {
        self.check_segment()?;
        for page in 0..self.n() {
            self.check_sound(page, Step::ScanDamaged)?;
            let count = page::count(self.page(page));
            self.notes.step_if(count == 0, Step::ScanFresh);
            (0..count).for_each(|slot| self.scan_slot(Place { page, slot }, found));
        }
        Ok(())
    }

    fn scan_slot(&mut self, place: Place, found: &mut Vec<Found>) {
        let record = self.slot(place);
        let (step, id) = match record.kind {
            Kind::Free => (Step::ScanFree, None),
            Kind::Redirect => (Step::ScanRedirect, None),
            Kind::Plain => (Step::ScanPlain, Some(place.id())),
            Kind::Target => (Step::ScanTarget, Some(self.back_id(place))),
        };
        self.notes.step(step);
        if let Some(id) = id {
            let (offset, length) = record.data();
            found.push(Found { id, offset: (place.page * PAGE + offset) as u64, length: length as u64 });
        }
    }
}

impl Store for Model {
    fn bytes(&self) -> (&[u8], &[u8]) {
        (&self.segment, &self.inventory)
    }

    fn bytes_mut(&mut self) -> (&mut [u8], &mut [u8]) {
        (&mut self.segment, &mut self.inventory)
    }

    fn insert_record(&mut self, record: &[u8]) -> (Answer, u64) {
        let result = self.new_record(record.len() as u64, Content::Given(record));
        (answer(&result), result.unwrap_or(0))
    }

    fn allocate(&mut self, size: u64) -> (Answer, u64) {
        let result = self.new_record(size, Content::Old(&[]));
        (answer(&result), result.unwrap_or(0))
    }

    fn get_record(&mut self, id: u64) -> (Answer, u64, u64) {
        let result = self.read(id);
        let (offset, length) = result.unwrap_or((0, 0));
        (answer(&result), offset, length)
    }

    fn write_record(&mut self, id: u64, record: &[u8]) -> Answer {
        answer(&self.change(id, record.len() as u64, Some(record)))
    }

    fn resize_record(&mut self, id: u64, size: u64) -> Answer {
        answer(&self.change(id, size, None))
    }

    fn erase_record(&mut self, id: u64) -> Answer {
        answer(&self.erase(id))
    }

    fn scan(&mut self) -> (Answer, Vec<Found>) {
        let mut found = Vec::new();
        let result = self.scan_all(&mut found);
        (answer(&result), found)
    }
}
