//! Campaigns: short stories of calls, each aimed at an edge of the record, the epochs, the bodies or the lines.
//! In this order: the writer of calls; calls on the record; campaigns on the record; campaigns on epochs, bodies and lines; the runs.

use crate::bodies::{layout_body, list_to_write};
use crate::commits::commit;
use crate::lines::{at_the_limits, dressed, spoilt};
use crate::merges::{merge_list, merge_size};
use crate::random::{hex, Device, Random};
use crate::requests::{request, request_of};
use crate::stateids::{names, Held, Name};
use std::io::{self, Write};

pub struct Campaigns<W: Write> {
    r: Random,
    out: W,
    calls: u64,
    /// Whether a console asks for the counts after each call.
    polled: bool,
    held: Held,
}

/// The numbers that one campaign's calls draw from.
struct Pool {
    files: Vec<u64>,
    clients: Vec<u64>,
    devices: Vec<Device>,
    names: Vec<Name>,
}

type Done = io::Result<()>;

/// Where one more restart may go.
const ONCE_MORE: &str = "# once more";

/// How often each call of a walk is made.
const WALK: [(u64, &str); 17] = [
    (9, "register"),
    (16, "open"),
    (11, "reclaim"),
    (11, "close"),
    (6, "repaired"),
    (6, "forget"),
    (8, "addproxy"),
    (5, "removeproxy"),
    (3, "end"),
    (3, "restart"),
    (20, "layoutreturn"),
    (10, "stateid"),
    (16, "ordinary"),
    (7, "resilver"),
    (6, "offered"),
    (8, "counts"),
    (1, "grace"),
];

impl<W: Write> Campaigns<W> {
    pub fn new(seed: u64, out: W) -> Campaigns<W> {
        Campaigns { r: Random::new(seed), out, calls: 0, polled: false, held: Held::default() }
    }

    fn raw(&mut self, line: &[u8]) -> Done {
        self.calls += 1;
        self.out.write_all(line)?;
        self.out.write_all(b"\n")
    }

    /// Writes a call, now and then in other dress, or with a spoilt one before it that must change nothing; and what a console asks for after it.
    fn call(&mut self, line: &str) -> Done {
        self.held.note(line);
        match self.r.below(200) {
            0 => {
                let dressed = dressed(&mut self.r, line);
                self.raw(&dressed)?;
            }
            1 => {
                let spoilt = spoilt(&mut self.r, line);
                self.raw(&spoilt)?;
                self.raw(line.as_bytes())?;
            }
            _ => self.raw(line.as_bytes())?,
        }
        if self.polled {
            self.raw(b"counts")?;
        }
        Ok(())
    }

    // ---- Calls on the record ----

    /// The line that sets up a record: now and then an old one.
    fn fresh_line(&mut self) -> &'static str {
        self.r.weighted(&[(3, "fresh"), (1, "fresh old")])
    }

    fn fresh(&mut self) -> Done {
        let line = self.fresh_line();
        self.call(line)
    }

    fn pool(&mut self, files: usize, clients: usize, devices: usize) -> Pool {
        Pool { files: self.r.numbers(files), clients: self.r.numbers(clients), devices: self.r.devices(devices), names: names(&mut self.r) }
    }

    /// A mirror list: mostly good, else empty, too long, with a device twice, or not of whole ids.
    fn mirrors(&mut self, pool: &Pool) -> Vec<u8> {
        let mut devices = pool.devices.clone();
        self.r.shuffle(&mut devices);
        let good = 1 + self.r.size(4.min(devices.len()));
        match self.r.below(30) {
            0 => devices.clear(),
            1 => devices.truncate(5),
            2 => {
                devices.truncate(good);
                let twin = self.r.pick(&devices);
                let at = self.r.size(devices.len() + 1);
                devices.insert(at, twin);
            }
            _ => devices.truncate(good),
        }
        let mut bytes = devices.concat();
        if self.r.percent(3) {
            let off = self.r.pick(&[1, 8, 15, 17]);
            let length = if self.r.percent(50) { bytes.len().saturating_sub(off) } else { bytes.len() + off };
            bytes.resize(length, 0x33);
        }
        bytes
    }

    fn register(&mut self, pool: &Pool, file: u64) -> Done {
        let mirrors = hex(&self.mirrors(pool));
        self.call(&format!("register {file} {mirrors}"))
    }

    /// A file with the first so many devices as its mirrors and, if asked, the next one as its proxy, so that reports of the first few devices name it.
    fn register_first(&mut self, pool: &Pool, file: u64, mirrors: usize, proxied: bool) -> Done {
        self.call(&format!("register {file} {}", hex(&pool.devices[..mirrors].concat())))?;
        if proxied {
            self.call(&format!("addproxy {file} {}", hex(&pool.devices[mirrors])))?;
        }
        Ok(())
    }

    /// A proxy of any of the devices, now and then of bytes that are no device id.
    fn add_proxy(&mut self, pool: &Pool, file: u64) -> Done {
        let mut device = self.r.pick(&pool.devices).to_vec();
        if self.r.percent(8) {
            device.resize(self.r.pick(&[0, 1, 8, 15, 17, 24, 32, 64]), 0x33);
        }
        self.call(&format!("addproxy {file} {}", hex(&device)))
    }

    /// A proxy is added, or removed.
    fn proxy_step(&mut self, pool: &Pool, file: u64) -> Done {
        if self.r.percent(55) {
            self.add_proxy(pool, file)
        } else {
            self.call(&format!("removeproxy {file}"))
        }
    }

    fn layoutreturn(&mut self, pool: &Pool, file: u64, client: u64) -> Done {
        let room = self.r.weighted(&[(90, 24), (2, 0), (1, 4), (3, 23), (2, 25), (1, 100)]);
        let request = hex(&request(&mut self.r, &pool.devices, 12));
        self.call(&format!("layoutreturn {file} {client} {room} {request}"))?;
        if self.r.percent(40) {
            self.call("totals")?;
        }
        Ok(())
    }

    /// A stateid is set up, mostly for an intent that has none.
    fn set_up_stateid(&mut self, pool: &Pool, file: u64, client: u64) -> Done {
        let (file, client) = self.held.without(&mut self.r, (file, client));
        let name = hex(&self.held.name(&mut self.r, &pool.names));
        self.call(&format!("stateid {file} {client} {name}"))
    }

    /// A return with an ordinary stateid, mostly of a client that holds one, which raises it if the request is sound.
    fn ordinary(&mut self, pool: &Pool, file: u64, client: u64) -> Done {
        if self.held.in_grace() && self.r.percent(75) {
            return self.layoutreturn(pool, file, client);
        }
        let (file, client) = self.held.holder(&mut self.r, (file, client));
        let stateid = self.held.stateid(&mut self.r, (file, client), &pool.names);
        let room = self.r.weighted(&[(95, 24), (1, 0), (1, 23), (2, 25), (1, 100)]);
        let (request, sound) = request_of(&mut self.r, &pool.devices, &stateid, 40);
        self.call(&format!("layoutreturn {file} {client} {room} {}", hex(&request)))?;
        if sound && room >= 24 {
            self.held.returned((file, client), &stateid);
        }
        if self.r.percent(40) {
            self.call("totals")?;
        }
        Ok(())
    }

    /// A listing into slices that have room for about so many: from one direction, or from both, one right after the other.
    fn listing(&mut self, name: &str, about: u64) -> Done {
        let room = |r: &mut Random| r.pick(&[0, 1, 2, about.saturating_sub(1), about, about, about + 1, 64, 64, 64, 100]);
        let (files, sources) = (room(&mut self.r), room(&mut self.r));
        let (lowest, highest) = (" lowest", self.r.pick(&["", " highest"]));
        let all = [lowest, highest, lowest];
        let asked = match self.r.below(4) {
            0 => &all[..1],
            1 => &all[1..2],
            2 => &all[..2],
            _ => &all[1..],
        };
        for word in asked {
            self.call(&format!("{name} {files} {sources}{word}"))?;
        }
        Ok(())
    }

    fn listings(&mut self, about: u64) -> Done {
        self.listing("resilver", about)?;
        self.listing("offered", about)
    }

    fn walk_step(&mut self, pool: &Pool) -> Done {
        let (file, client) = (self.r.pick(&pool.files), self.r.pick(&pool.clients));
        match self.r.weighted(&WALK) {
            "register" => self.register(pool, file),
            "layoutreturn" => self.layoutreturn(pool, file, client),
            "stateid" if self.held.in_grace() && self.r.percent(75) => self.call(&format!("reclaim {file} {client}")),
            "stateid" => self.set_up_stateid(pool, file, client),
            "ordinary" => self.ordinary(pool, file, client),
            "addproxy" => self.add_proxy(pool, file),
            name @ ("open" | "reclaim" | "close") => self.call(&format!("{name} {file} {client}")),
            name @ ("repaired" | "forget" | "removeproxy") => self.call(&format!("{name} {file}")),
            name @ ("resilver" | "offered") => self.listing(name, pool.files.len() as u64 / 2),
            "grace" => self.grace(pool),
            name => self.call(name),
        }
    }

    /// A call inside a grace period: a reclaim, a close, a list, a report, or now and then one more restart.
    fn grace_step(&mut self, pool: &Pool) -> Done {
        let (file, client) = (self.r.pick(&pool.files), self.r.pick(&pool.clients));
        match self.r.below(10) {
            0..=3 => self.call(&format!("reclaim {file} {client}")),
            4 | 5 => self.call(&format!("close {file} {client}")),
            6 => self.listing("resilver", 2),
            7 if self.r.percent(20) => self.call("restart"),
            8 if self.r.percent(30) => self.ordinary(pool, file, client),
            8 if self.r.percent(20) => self.set_up_stateid(pool, file, client),
            _ => self.layoutreturn(pool, file, client),
        }
    }

    fn grace(&mut self, pool: &Pool) -> Done {
        self.call("restart")?;
        for _ in 0..self.r.below(2 * pool.files.len() as u64) {
            self.grace_step(pool)?;
        }
        self.call("end")
    }

    // ---- Campaigns on the record ----

    /// A walk over few files, clients and devices, so that calls meet.
    fn walk(&mut self) -> Done {
        let (files, clients, devices) = (1 + self.r.size(5), 1 + self.r.size(4), 3 + self.r.size(4));
        let pool = self.pool(files, clients, devices);
        self.fresh()?;
        for _ in 0..250 {
            self.walk_step(&pool)?;
        }
        Ok(())
    }

    /// Ten clients on two files: intents up to eight and one more, gone and back, through grace.
    fn intents(&mut self) -> Done {
        let pool = self.pool(2, 10, 4);
        self.fresh()?;
        for file in &pool.files {
            self.register(&pool, *file)?;
        }
        for _ in 0..6 {
            for _ in 0..self.r.below(50) {
                let (file, client) = (self.r.pick(&pool.files), self.r.pick(&pool.clients));
                let name = self.r.weighted(&[(9, "open"), (1, "close")]);
                self.call(&format!("{name} {file} {client}"))?;
            }
            self.grace(&pool)?;
            self.listings(2)?;
            let file = self.r.pick(&pool.files);
            self.call(&format!("repaired {file}"))?;
        }
        Ok(())
    }

    /// Up to eight clients hold each file, and all but one, or none, or some of them reclaim it; a few close it again before grace ends.
    fn returning(&mut self) -> Done {
        let clients = 2 + self.r.size(7);
        let pool = self.pool(3, clients, 4);
        self.fresh()?;
        for file in &pool.files {
            self.register(&pool, *file)?;
            for client in &pool.clients {
                self.call(&format!("open {file} {client}"))?;
            }
        }
        for _ in 0..4 {
            self.call("restart")?;
            for file in &pool.files {
                self.reclaims_of(&pool.clients, *file)?;
            }
            self.call("end")?;
            self.listings(3)?;
            for file in &pool.files {
                self.call(&format!("repaired {file}"))?;
                let client = self.r.pick(&pool.clients);
                self.call(&format!("open {file} {client}"))?;
            }
        }
        Ok(())
    }

    /// The clients reclaim a file but for those who stay away: nobody, one, or each by chance.
    fn reclaims_of(&mut self, clients: &[u64], file: u64) -> Done {
        let (kind, one) = (self.r.below(3), self.r.pick(clients));
        for client in clients {
            let away = match kind {
                0 => false,
                1 => *client == one,
                _ => self.r.percent(40),
            };
            if !away {
                self.call(&format!("reclaim {file} {client}"))?;
            }
            if self.r.percent(20) {
                self.call(&format!("close {file} {client}"))?;
            }
        }
        Ok(())
    }

    /// A full table: 64 files and more, forgotten and registered again, opened, lost, listed and repaired.
    fn table(&mut self) -> Done {
        let pool = self.pool(67, 3, 5);
        self.fresh()?;
        for file in &pool.files {
            self.register(&pool, *file)?;
        }
        for file in pool.files.clone() {
            self.register(&pool, file)?;
        }
        for _ in 0..3 {
            for _ in 0..self.r.below(120) {
                let (file, client) = (self.r.pick(&pool.files), self.r.pick(&pool.clients));
                self.call(&format!("open {file} {client}"))?;
            }
            self.grace(&pool)?;
            self.listings(40)?;
            for _ in 0..60 {
                self.walk_step(&pool)?;
            }
        }
        Ok(())
    }

    /// Every file of a full table is lost, so that the lists have 64 entries.
    fn all_lost(&mut self) -> Done {
        let pool = self.pool(66, 2, 4);
        self.fresh()?;
        for file in &pool.files {
            let mirror = hex(&pool.devices[0]);
            self.call(&format!("register {file} {mirror}"))?;
            self.call(&format!("open {file} 1"))?;
        }
        self.call("restart")?;
        for _ in 0..self.r.below(3) {
            let file = self.r.pick(&pool.files);
            self.call(&format!("reclaim {file} 1"))?;
        }
        self.call("end")?;
        for _ in 0..6 {
            self.listings(64)?;
            let file = self.r.pick(&pool.files);
            self.call(&format!("repaired {file}"))?;
            self.call(&format!("forget {file}"))?;
            self.register(&pool, file)?;
        }
        Ok(())
    }

    /// Three grace periods with reports on a few files that are open, and what each leaves: blame that is repaired and comes again.
    fn reports(&mut self) -> Done {
        let pool = self.pool(3, 2, 5);
        self.fresh()?;
        for file in &pool.files {
            let (mirrors, proxied) = (1 + self.r.size(4), self.r.percent(40));
            self.register_first(&pool, *file, mirrors, proxied)?;
        }
        for _ in 0..3 {
            self.open_all(&pool)?;
            self.call("restart")?;
            for _ in 0..self.r.below(16) {
                let (file, client) = (self.r.pick(&pool.files), self.r.pick(&pool.clients));
                self.layoutreturn(&pool, file, client)?;
                self.listing("resilver", 2)?;
            }
            self.call("end")?;
            for file in &pool.files {
                self.listings(3)?;
                self.call(&format!("repaired {file}"))?;
            }
        }
        Ok(())
    }

    /// Reports in one grace period on a file whose mirrors, with or without a proxy, are all or nearly all of the devices, so that their statistics count.
    fn counts(&mut self) -> Done {
        let proxied = self.r.percent(50);
        let devices = if proxied { 2 + self.r.size(4) } else { 4 };
        let pool = self.pool(1, 1, devices);
        let (file, client) = (pool.files[0], pool.clients[0]);
        self.fresh()?;
        let mirrors = if proxied { &pool.devices[1..] } else { &pool.devices[..3 + self.r.size(2)] };
        self.call(&format!("register {file} {}", hex(&mirrors.concat())))?;
        if proxied {
            self.call(&format!("addproxy {file} {}", hex(&pool.devices[0])))?;
        }
        self.call(&format!("open {file} {client}"))?;
        self.call("restart")?;
        for _ in 0..24 {
            self.layoutreturn(&pool, file, client)?;
            self.call("totals")?;
        }
        self.listing("resilver", 1)
    }

    /// Proxies that come and go around three grace periods: added twice, of a mirror, of no device id; reported, blamed, and removed before the repair and
    /// after it; repaired, and forgotten with their file.
    fn proxies(&mut self) -> Done {
        let pool = self.pool(3, 2, 6);
        self.fresh()?;
        for file in &pool.files {
            let (mirrors, proxied) = (1 + self.r.size(4), self.r.percent(80));
            self.register_first(&pool, *file, mirrors, proxied)?;
        }
        for _ in 0..3 {
            self.open_all(&pool)?;
            self.call("restart")?;
            for _ in 0..self.r.below(10) {
                let (file, client) = (self.r.pick(&pool.files), self.r.pick(&pool.clients));
                self.layoutreturn(&pool, file, client)?;
                self.listing("resilver", 2)?;
                if self.r.percent(10) {
                    self.proxy_step(&pool, file)?;
                }
            }
            self.call("end")?;
            for file in &pool.files {
                self.after_grace(&pool, *file)?;
            }
        }
        Ok(())
    }

    /// What follows grace for a file that may have a proxy: it is closed, mostly repaired, now and then forgotten and registered again, and between these
    /// its proxy goes or another comes.
    fn after_grace(&mut self, pool: &Pool, file: u64) -> Done {
        for client in &pool.clients {
            self.call(&format!("close {file} {client}"))?;
        }
        for name in ["repaired", "forget", "register"] {
            for _ in 0..self.r.below(3) {
                self.proxy_step(pool, file)?;
            }
            self.listings(3)?;
            match name {
                "register" => self.register(pool, file)?,
                _ if self.r.percent(60) => self.call(&format!("{name} {file}"))?,
                _ => {}
            }
        }
        self.proxy_step(pool, file)
    }

    /// Stateids that are set up, raised by returns, and end with their intents: closed and opened again, lost at the end of grace, or by a restart; returns
    /// that name older and newer ones, those of others and those that have ended; and what the reports of returns leave.
    fn stateids(&mut self) -> Done {
        let clients = 1 + self.r.size(4);
        let pool = self.pool(3, clients, 5);
        self.fresh()?;
        for file in &pool.files {
            let (mirrors, proxied) = (2 + self.r.size(3), self.r.percent(40));
            self.register_first(&pool, *file, mirrors, proxied)?;
        }
        self.open_all(&pool)?;
        for _ in 0..2 + self.r.size(6) {
            self.set_up_stateid(&pool, pool.files[0], pool.clients[0])?;
        }
        for _ in 0..100 {
            self.stateid_step(&pool)?;
        }
        Ok(())
    }

    fn stateid_step(&mut self, pool: &Pool) -> Done {
        let (file, client) = (self.r.pick(&pool.files), self.r.pick(&pool.clients));
        match self.r.below(100) {
            0..=17 => self.set_up_stateid(pool, file, client),
            18..=71 => self.ordinary(pool, file, client),
            72..=79 => self.call(&format!("open {file} {client}")),
            80..=83 => self.call(&format!("close {file} {client}")),
            84..=86 => {
                self.call(&format!("close {file} {client}"))?;
                self.call(&format!("open {file} {client}"))
            }
            87 => self.grace(pool),
            88 | 89 => self.layoutreturn(pool, file, client),
            90 | 91 => self.call(&format!("repaired {file}")),
            92 => self.call(&format!("forget {file}")),
            93 => self.register(pool, file),
            94 => self.proxy_step(pool, file),
            95 => self.open_all(pool),
            _ => self.listings(2),
        }
    }

    /// Every client opens every file, and now and then one closes it again.
    fn open_all(&mut self, pool: &Pool) -> Done {
        for file in &pool.files {
            for client in &pool.clients {
                self.call(&format!("open {file} {client}"))?;
            }
            if self.r.percent(30) {
                self.call(&format!("close {file} {}", pool.clients[0]))?;
            }
        }
        Ok(())
    }

    /// Another campaign on the record, with a console that asks for the counts after each call (Ticket 8).
    fn console(&mut self) -> Done {
        self.polled = true;
        match self.r.below(8) {
            0 => self.walk()?,
            1 => self.intents()?,
            2 => self.table()?,
            3 => self.all_lost()?,
            4 => self.reports()?,
            5 => self.returning()?,
            6 => self.stateids()?,
            _ => self.proxies()?,
        }
        self.polled = false;
        Ok(())
    }

    /// A history for Ticket 14: it ends with the end of a grace period and the resilver list, and the comment ONCE_MORE stands where one more restart
    /// may go, anywhere in that period.
    fn restartable(&mut self) -> Done {
        let (files, clients, devices) = (1 + self.r.size(2), 1 + self.r.size(3), 3 + self.r.size(3));
        let pool = self.pool(files, clients, devices);
        let fresh = self.fresh_line();
        self.held.note(fresh);
        self.raw(fresh.as_bytes())?;
        for file in &pool.files {
            let (mirrors, proxied) = (1 + self.r.size(devices - 1), self.r.percent(40));
            self.register_first(&pool, *file, mirrors, proxied)?;
        }
        self.open_all(&pool)?;
        for _ in 0..self.r.below(12) {
            self.walk_step(&pool)?;
        }
        self.held.note("restart");
        self.raw(b"restart")?;
        for _ in 0..self.r.below(6) {
            self.restartable_step(&pool)?;
        }
        writeln!(self.out, "{ONCE_MORE}")?;
        for _ in 0..self.r.below(9) {
            self.restartable_step(&pool)?;
        }
        self.raw(b"end")?;
        self.raw(b"resilver 64 64 lowest")
    }

    /// A call in grace that can change what the end of grace lists, restarts among them.
    fn restartable_step(&mut self, pool: &Pool) -> Done {
        let (file, client) = (self.r.pick(&pool.files), self.r.pick(&pool.clients));
        match self.r.below(10) {
            0..=3 => self.call(&format!("reclaim {file} {client}")),
            4..=6 => self.call(&format!("close {file} {client}")),
            7 => self.call(&format!("repaired {file}")),
            8 if self.r.percent(15) => self.ordinary(pool, file, client),
            8 if self.r.percent(10) => self.set_up_stateid(pool, file, client),
            8 => self.layoutreturn(pool, file, client),
            _ => self.call("restart"),
        }
    }

    // ---- Campaigns on epochs, bodies and lines ----

    fn epochs(&mut self) -> Done {
        let few = [0, 1, 15, 30, 31];
        let all: Vec<u64> = (0..32).collect();
        let nodes = if self.r.percent(70) { &few[..2 + self.r.size(4)] } else { &all[..] };
        self.fresh()?;
        for _ in 0..self.r.size(2 * nodes.len()) {
            let node = self.r.pick(nodes);
            self.call(&format!("join {node}"))?;
        }
        for _ in 0..120 {
            let name = self.r.weighted(&[(4, "join"), (5, "leave"), (3, "start"), (10, "enforce"), (8, "finish"), (5, "stop")]);
            let beyond = self.r.pick(&[32, 33, 63, 64, 256, 0x8000_0000, 0xffff_ffff]);
            let node = if self.r.percent(4) { beyond } else { self.r.pick(nodes) };
            self.call(&format!("{name} {node}"))?;
            self.call("epochs")?;
            let node = if self.r.percent(10) { beyond } else { self.r.pick(nodes) };
            self.call(&format!("may {node}"))?;
        }
        Ok(())
    }

    /// Requests by themselves, most with a special stateid, each also as a LAYOUTRETURN.
    fn requests(&mut self) -> Done {
        let pool = self.pool(2, 2, 3);
        self.fresh()?;
        for _ in 0..60 {
            let request = hex(&request(&mut self.r, &pool.devices, 80));
            self.call(&format!("request {request}"))?;
            if self.r.percent(20) {
                let phase = self.r.pick(&["restart", "end"]);
                self.call(phase)?;
            }
            self.call(&format!("layoutreturn {} {} 24 {request}", pool.files[0], pool.clients[0]))?;
        }
        Ok(())
    }

    fn layouts(&mut self) -> Done {
        for _ in 0..120 {
            let rdma = self.r.percent(50);
            let body = hex(&layout_body(&mut self.r, rdma));
            let other = self.r.percent(5);
            self.call(&format!("{} {body}", if rdma != other { "rdma" } else { "layout" }))?;
            let (room, extents) = list_to_write(&mut self.r, rdma);
            self.call(&format!("{} {room} {}", if rdma { "rdmawrite" } else { "write" }, hex(&extents)))?;
        }
        Ok(())
    }

    /// Lists to be merged, into a buffer that has room for them all, for some or for none.
    fn merges(&mut self) -> Done {
        for _ in 0..40 {
            let n = merge_size(&mut self.r);
            let list = merge_list(&mut self.r, n);
            let all = 4 + 44 * n as u64;
            let some = 4 + 44 * self.r.below(n as u64 + 1);
            let room = self.r.pick(&[45_060, 45_060, 65_536, all.min(65_536), some.min(65_536), some.saturating_sub(1).min(65_536), 0]);
            self.call(&format!("merge {room} {}", hex(&list)))?;
        }
        Ok(())
    }

    fn commits(&mut self) -> Done {
        for _ in 0..60 {
            let c = commit(&mut self.r);
            self.call(&format!("commit {} {} {} {}", c.block, c.room, hex(&c.ranges), hex(&c.extents)))?;
        }
        Ok(())
    }

    /// Lines spoilt and dressed, comments and empty lines among calls whose answers would show a change.
    fn lines(&mut self) -> Done {
        let pool = self.pool(2, 2, 3);
        self.fresh()?;
        for _ in 0..40 {
            let (file, client, node) = (self.r.pick(&pool.files), self.r.pick(&pool.clients), self.r.below(4));
            let mirrors = hex(&pool.devices[0]);
            let calls = [
                format!("register {file} {mirrors}"),
                format!("open {file} {client}"),
                format!("close {file} {client}"),
                format!("addproxy {file} {}", hex(&pool.devices[1])),
                format!("removeproxy {file}"),
                format!("stateid {file} {client} {}", hex(&pool.names[0])),
                format!("join {node}"),
                format!("start {node}"),
                "restart".to_string(),
                "end".to_string(),
                "fresh".to_string(),
                "fresh old".to_string(),
                "epochs".to_string(),
                "totals".to_string(),
                "counts".to_string(),
                "request -".to_string(),
                "resilver 2 2".to_string(),
                "resilver 2 2 lowest".to_string(),
                "offered 2 2 highest".to_string(),
                format!("layout {:08x}", 0),
            ];
            let line = calls[self.r.size(calls.len())].clone();
            let spoilt = spoilt(&mut self.r, &line);
            self.raw(&spoilt)?;
            let dressed = dressed(&mut self.r, &line);
            self.raw(&dressed)?;
            let skipped = self.r.pick(&["", "#", "# open 1 1", " \t", "\r", "\t#x"]);
            writeln!(self.out, "{skipped}")?;
        }
        Ok(())
    }

    /// Each limit from both sides, once a script.
    fn limits(&mut self) -> Done {
        for line in at_the_limits() {
            self.raw(line.as_bytes())?;
        }
        self.call("end")
    }

    // ---- The runs ----

    /// So many histories for Ticket 14, each from `fresh` to its list.
    pub fn run_pairs(mut self, pairs: u64) -> Done {
        for _ in 0..pairs {
            self.restartable()?;
        }
        self.out.flush()
    }

    pub fn run(mut self, calls: u64) -> Done {
        const KINDS: [(u64, u32); 16] =
            [(30, 0), (12, 1), (10, 2), (6, 3), (50, 4), (10, 5), (18, 6), (10, 7), (24, 8), (60, 9), (12, 10), (18, 11), (30, 12), (40, 13), (45, 14), (45, 15)];
        self.limits()?;
        while self.calls < calls {
            match self.r.weighted(&KINDS) {
                0 => self.walk()?,
                1 => self.intents()?,
                2 => self.table()?,
                3 => self.all_lost()?,
                4 => self.reports()?,
                5 => self.epochs()?,
                6 => self.layouts()?,
                7 => self.lines()?,
                8 => self.returning()?,
                9 => self.counts()?,
                10 => self.requests()?,
                11 => self.merges()?,
                12 => self.commits()?,
                13 => self.proxies()?,
                15 => self.stateids()?,
                _ => self.console()?,
            }
        }
        self.out.flush()
    }
}
