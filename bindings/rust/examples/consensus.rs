//! Rounds of a consensus protocol, as a bench: a leader sends a block of 1 MB to all, each peer that has
//! it votes to all, and who has votes of two thirds goes on to the next round, which the next peer leads.
//!
//!     consensus [PEERS [ROUNDS]]      24 peers and 5 rounds, where nothing is said
//!
//! It prints when each round ends for the first and for the last peer, and how many messages were sent.
use p2p_simulated::{Completion, Error, Outgoing, Payload, State};
use std::cmp::Reverse;
use std::collections::{BTreeSet, BinaryHeap};
use std::sync::Arc;

enum Message {
    Block(u64),
    Vote(u64),
}

impl Payload for Message {
    fn length(&self) -> usize {
        match self {
            Message::Block(_) => 1_000_000,
            Message::Vote(_) => 200,
        }
    }
}

struct Peer {
    round: u64,
    votes: BTreeSet<(u64, u64)>,
}

/// What arrives: when, after how many before it, at whom, from whom, and what.
type Arrival = Reverse<(u64, u64, u64, u64)>;

struct Bench {
    state: State<u64, Arc<Message>>,
    peers: Vec<Peer>,
    arrivals: BinaryHeap<Arrival>,
    messages: Vec<Arc<Message>>,
    ends: Vec<Vec<u64>>,
}

impl Bench {
    fn new(count: u64, rounds: u64) -> Result<Bench, Error> {
        let mut state = State::numbered()?;
        for peer in 0..count {
            state.limit(0, &peer, Some(125_000_000), Some(125_000_000))?;
        }
        let peer = |_| Peer {
            round: 0,
            votes: BTreeSet::new(),
        };
        Ok(Bench {
            state,
            peers: (0..count).map(peer).collect(),
            arrivals: BinaryHeap::new(),
            messages: Vec::new(),
            ends: vec![Vec::new(); rounds as usize],
        })
    }

    fn count(&self) -> u64 {
        self.peers.len() as u64
    }

    /// A peer sends to all others.
    fn broadcast(&mut self, now: u64, origin: u64, message: Message) -> Result<(), Error> {
        let message = Arc::new(message);
        let others = (0..self.count()).filter(|peer| *peer != origin);
        let sent = others.map(|recipient| Outgoing {
            origin,
            recipient,
            channel: 0,
            message: message.clone(),
            latency: 20_000_000 + 1_000_000 * ((origin * 7 + recipient * 3) % 31),
            should_deliver: true,
        });
        let done = self.state.enqueue_all(now, sent)?;
        self.arrive(done);
        Ok(())
    }

    fn arrive(&mut self, done: Vec<Completion<u64, Arc<Message>>>) {
        for it in done {
            let (at, number) = (it.deliver_at.unwrap(), self.messages.len() as u64);
            self.arrivals
                .push(Reverse((at, number, it.recipient, it.origin)));
            self.messages.push(it.message);
        }
    }

    /// A peer has what it was sent.
    fn receive(
        &mut self,
        now: u64,
        peer: u64,
        origin: u64,
        message: &Message,
    ) -> Result<(), Error> {
        match *message {
            Message::Block(round) => {
                self.vote(now, peer, peer, round)?;
                self.broadcast(now, peer, Message::Vote(round))
            }
            Message::Vote(round) => self.vote(now, peer, origin, round),
        }
    }

    /// A peer counts a vote, and goes on where two thirds have voted.
    fn vote(&mut self, now: u64, peer: u64, voter: u64, round: u64) -> Result<(), Error> {
        let quorum = self.peers.len() * 2 / 3 + 1;
        let own = &mut self.peers[peer as usize];
        own.votes.insert((round, voter));
        let votes = own.votes.range((round, 0)..(round + 1, 0)).count();
        if own.round != round || votes < quorum {
            return Ok(());
        }
        own.round += 1;
        self.ends[round as usize].push(now);
        if (round + 1) % self.count() == peer && (round as usize) + 1 < self.ends.len() {
            return self.lead(now, round + 1);
        }
        Ok(())
    }

    fn lead(&mut self, now: u64, round: u64) -> Result<(), Error> {
        let leader = round % self.count();
        self.broadcast(now, leader, Message::Block(round))?;
        self.vote(now, leader, leader, round)?;
        self.broadcast(now, leader, Message::Vote(round))
    }

    fn run(&mut self) -> Result<(), Error> {
        self.lead(0, 0)?;
        loop {
            let first = self.arrivals.peek().map(|it| it.0 .0);
            match (first, self.state.next()) {
                (Some(at), due) if due.map_or(true, |due| at < due) => {
                    let Reverse((now, number, peer, origin)) = self.arrivals.pop().unwrap();
                    let done = self.state.advance(now)?;
                    self.arrive(done);
                    let message = self.messages[number as usize].clone();
                    self.receive(now, peer, origin, &message)?;
                }
                (_, Some(due)) => {
                    let done = self.state.advance(due)?;
                    self.arrive(done);
                }
                _ => return Ok(()),
            }
        }
    }
}

fn main() -> Result<(), Error> {
    let mut words = std::env::args()
        .skip(1)
        .map(|it| it.parse().expect("a number"));
    let mut bench = Bench::new(words.next().unwrap_or(24), words.next().unwrap_or(5))?;
    bench.run()?;
    for (round, ends) in bench.ends.iter().enumerate() {
        println!(
            "round {round}: {} peers from {} to {} ns",
            ends.len(),
            ends[0],
            ends[ends.len() - 1]
        );
    }
    println!("{} messages", bench.messages.len());
    Ok(())
}
