//! Lands each block of a payload of 262,144 blocks, one by one, in four runs, over std's maps and sets.
use std::collections::{HashMap, HashSet};

const LANDINGS: u32 = 262_144;
const CLAIM_BLOCKS: u32 = 65_536;
const PIECE_BLOCKS: u32 = 4_096;

struct Claim {
    download: u64,
    mirror: u16,
    first: u32,
    count: u32,
    open: u32,
}

#[derive(Default)]
struct Download {
    landed: HashSet<u32>,
    filled: HashMap<u32, u32>,
    givers: HashMap<u32, u16>,
}

#[allow(dead_code)]
struct Landed {
    download: u64,
    claim: u64,
    mirror: u16,
    first: u32,
    count: u32,
    now: u64,
}

#[derive(Default)]
struct Run {
    downloads: HashMap<u64, Download>,
    claims: HashMap<u64, Claim>,
    journal: Vec<Landed>,
    next: u64,
}

impl Run {
    fn claim(&mut self, download: u64, first: u32) -> u64 {
        let id = self.next;
        self.next += 1;
        let claim = Claim { download, mirror: 0, first, count: CLAIM_BLOCKS, open: CLAIM_BLOCKS };
        self.claims.insert(id, claim);
        id
    }

    fn is_new(&self, id: u64, block: u32) -> bool {
        match self.claims.get(&id) {
            Some(claim) => {
                claim.first <= block
                    && block - claim.first < claim.count
                    && !self.downloads[&claim.download].landed.contains(&block)
            }
            None => false,
        }
    }

    fn land(&mut self, id: u64, block: u32, now: u64) {
        let claim = self.claims.get_mut(&id).unwrap();
        let (gid, mirror) = (claim.download, claim.mirror);
        let download = self.downloads.get_mut(&gid).unwrap();
        download.landed.insert(block);
        *download.filled.entry(block / PIECE_BLOCKS).or_default() += 1;
        download.givers.insert(block / PIECE_BLOCKS, mirror);
        claim.open -= 1;
        if claim.open == 0 {
            self.claims.remove(&id);
        }
        self.journal.push(Landed { download: gid, claim: id, mirror, first: block, count: 1, now });
    }
}

fn land_all() -> u64 {
    let mut run = Run::default();
    run.downloads.insert(1, Download::default());
    let mut new = 0;
    let mut claim = u64::MAX;
    for block in 0..LANDINGS {
        if !run.claims.contains_key(&claim) {
            claim = run.claim(1, block);
        }
        if run.is_new(claim, block) {
            run.land(claim, block, 0);
            new += 1;
        }
    }
    new
}

fn main() {
    for _ in 0..4 {
        println!("{}", land_all());
    }
}
