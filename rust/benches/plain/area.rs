//! A label-setting expansion, all of it in 4 × n lent words: seats n, settled nodes n, heap 2 × n. The
//! seat of a node is 0 while the node is not met, i + 1 while it waits as entry i of the heap, and
//! n + 1 + its label once it is settled.

use super::node_queue::NodeQueue;
use super::queue::Entry;
use overlap::calls::Network;

/// An expansion under way.
pub struct Area<'a> {
    queue: NodeQueue<'a>,
    settled: &'a mut [u32],
    count: usize,
}

impl<'a> Area<'a> {
    /// From one node. The words are all zero.
    pub fn start(words: &'a mut [u32], network: Network<'_>, node: u32) -> Self {
        let mut area = Self::empty(words, network);
        area.begin_at(node);
        area
    }

    /// From no node yet. The words are all zero.
    pub fn empty(words: &'a mut [u32], network: Network<'_>) -> Self {
        let n = network.starts.len() - 1;
        let (seats, rest) = words.split_at_mut(n);
        let (settled, heap) = rest.split_at_mut(n);
        Self {
            queue: NodeQueue::new(seats, &mut heap[..2 * n]),
            settled,
            count: 0,
        }
    }

    /// Lets a node wait at distance 0, which does not wait yet.
    pub fn begin_at(&mut self, node: u32) {
        self.queue.push(Entry::new(0, node, node));
    }

    /// The least entry.
    pub fn next(&mut self) -> Option<Entry> {
        self.queue.pop()
    }

    pub fn settle(&mut self, entry: Entry) {
        let n = self.queue.seats.len() as u32;
        self.queue.seats[entry.node()] = entry.distance + n + 1;
        self.settled[self.count] = entry.node() as u32;
        self.count += 1;
    }

    /// Offers each neighbour the way over this node.
    pub fn open(&mut self, network: Network<'_>, entry: Entry) {
        let own = entry.node();
        let arcs = network.starts[own] as usize..network.starts[own + 1] as usize;
        let weights = &network.weights[arcs.clone()];
        for (&to, &weight) in network.neighbours[arcs].iter().zip(weights) {
            let distance = entry.distance + weight;
            self.queue.offer(Entry::new(distance, to, own as u32));
        }
    }

    /// Settles all nodes that can be reached.
    pub fn settle_all(&mut self, network: Network<'_>) {
        while let Some(entry) = self.next() {
            self.settle(entry);
            self.open(network, entry);
        }
    }

    /// The label of a node that is settled.
    pub fn label(&self, node: usize) -> Option<u32> {
        self.label_of(self.queue.seats[node])
    }

    /// The labels of all nodes.
    pub fn labels(&self) -> impl Iterator<Item = Option<u32>> + '_ {
        self.queue.seats.iter().map(|&seat| self.label_of(seat))
    }

    fn label_of(&self, seat: u32) -> Option<u32> {
        seat.checked_sub(self.queue.seats.len() as u32 + 1)
    }

    /// The nodes that are settled, in their order.
    pub fn settled(&self) -> &[u32] {
        &self.settled[..self.count]
    }

    /// Makes the words that were touched zero.
    pub fn clear(mut self) {
        self.queue.clear();
        for node in &mut self.settled[..self.count] {
            self.queue.seats[*node as usize] = 0;
            *node = 0;
        }
    }
}
