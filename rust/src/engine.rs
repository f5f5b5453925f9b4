//! The calls without a table.

use crate::buffers::{Buffers, Words};
use crate::calls::{self, accepted, Found, Listing};
use crate::{Distances, Expansion, Listed, Nearest, Network, Points, Refusal};

/// The calls without a table, on one network.
///
/// It owns the scratch and the places for answers and visits, as long as documents 01 and 02 ask for.
/// They are allocated at the first call and again only when a later call needs more. On the largest
/// network scratch is 786,420 words for eager, verify and the short query, and 76,545,904 for the
/// other calls with k = 16. An answer is lent from them, so it is read or copied before the next
/// call.
///
/// Document 01: "For query node q and k, point p is listed if it can be reached from q and fewer
/// than k other points p' have d(p, p') < d(p, q). The point p itself doesn't count. [...] Lists are
/// ascending by node." Document 02 (Ask 6): "The lease edition now says that a point on q isn't
/// listed." (Ask 8): "Each counts, so a locker has its companions on the node as others at distance
/// 0. A node is listed once, as its lockers fare alike."
///
/// ```
/// use overlap::{Engine, Network, Points};
///
/// # fn main() -> Result<(), overlap::Refusal> {
/// // Network N of document 01.
/// let network = Network::from_roads(6, &[(0, 1, 4), (0, 3, 5), (1, 2, 3), (2, 4, 7), (3, 4, 3)])?;
/// let points = Points::on(&network, [2, 4, 5])?;
/// let mut engine = Engine::new(&network);
/// for q in 0..network.nodes() {
///     println!("a site on {q} receives {:?}", engine.lazy(&points, q, 1)?);
/// }
/// # Ok(())
/// # }
/// ```
#[derive(Clone, Debug)]
pub struct Engine {
    network: Network,
    buffers: Buffers,
    ids: [u32; 16],
    distances: [u32; 16],
}

impl Engine {
    /// An engine for this network, which it shares.
    ///
    /// ```
    /// use overlap::{Engine, Network};
    ///
    /// # fn main() -> Result<(), overlap::Refusal> {
    /// // Network N of document 01.
    /// let roads = [(0, 1, 4), (0, 3, 5), (1, 2, 3), (2, 4, 7), (3, 4, 3)];
    /// let network = Network::from_roads(6, &roads)?;
    /// let mut engine = Engine::new(&network);
    /// assert_eq!(engine.distances(0)?.to(4), Some(8));
    /// # Ok(())
    /// # }
    /// ```
    #[must_use]
    pub fn new(network: &Network) -> Self {
        Self {
            network: network.clone(),
            buffers: Buffers::default(),
            ids: [0; 16],
            distances: [0; 16],
        }
    }

    /// The network.
    ///
    /// ```
    /// use overlap::{Engine, Network};
    ///
    /// # fn main() -> Result<(), overlap::Refusal> {
    /// // Network N of document 01.
    /// let roads = [(0, 1, 4), (0, 3, 5), (1, 2, 3), (2, 4, 7), (3, 4, 3)];
    /// let network = Network::from_roads(6, &roads)?;
    /// assert_eq!(Engine::new(&network).network(), &network);
    /// # Ok(())
    /// # }
    /// ```
    #[must_use]
    pub fn network(&self) -> &Network {
        &self.network
    }

    /// Document 01: "Distances from a node: n entries, NONE where none." "d(a, b) is the smallest
    /// sum of weights over all walks from a to b; d(a, a) = 0; without a walk b can't be reached."
    ///
    /// ```
    /// use overlap::{Engine, Network, NONE};
    ///
    /// # fn main() -> Result<(), overlap::Refusal> {
    /// // Network N of document 01.
    /// let roads = [(0, 1, 4), (0, 3, 5), (1, 2, 3), (2, 4, 7), (3, 4, 3)];
    /// let network = Network::from_roads(6, &roads)?;
    /// let mut engine = Engine::new(&network);
    /// assert_eq!(engine.distances(0)?.words(), [0, 4, 7, 5, 8, NONE]);
    /// # Ok(())
    /// # }
    /// ```
    ///
    /// # Errors
    ///
    /// 7 where the node is n or more.
    pub fn distances(&mut self, node: u32) -> Result<Distances<'_>, Refusal> {
        let (scratch, words) = self.buffers.both(&self.network, Words::S(1));
        accepted(calls::distances(self.network.lend(), node, scratch, words))?;
        Ok(Distances { words })
    }

    /// Document 01: "Nearest: the points p with d(node, p) < e, e any 32-bit number, by distance
    /// then node, cut after the first k". Document 02 (Ask 8): "Rows and the nearest call repeat a
    /// node for each locker".
    ///
    /// With e = [`NONE`](crate::NONE) all points that can be reached come into question.
    ///
    /// ```
    /// use overlap::{Engine, Network, Points, NONE};
    ///
    /// # fn main() -> Result<(), overlap::Refusal> {
    /// // Network N of document 01.
    /// let roads = [(0, 1, 4), (0, 3, 5), (1, 2, 3), (2, 4, 7), (3, 4, 3)];
    /// let network = Network::from_roads(6, &roads)?;
    /// let points = Points::on(&network, [2, 4, 5])?;
    /// let mut engine = Engine::new(&network);
    /// assert!(engine.nearest(&points, 0, NONE, 2)?.iter().eq([(2, 7), (4, 8)]));
    ///
    /// // Point 4 has distance 8, which is not below 8.
    /// assert!(engine.nearest(&points, 0, 8, 2)?.iter().eq([(2, 7)]));
    ///
    /// // Three lockers on node 2, of which the second list has room for two.
    /// let points = Points::on(&network, [2, 2, 2, 4, 5])?;
    /// let four = engine.nearest(&points, 0, NONE, 4)?;
    /// assert!(four.iter().eq([(2, 7), (2, 7), (2, 7), (4, 8)]));
    /// assert!(engine.nearest(&points, 0, NONE, 2)?.iter().eq([(2, 7), (2, 7)]));
    /// # Ok(())
    /// # }
    /// ```
    ///
    /// # Errors
    ///
    /// The first condition met of 6, 7 and 9.
    pub fn nearest(
        &mut self,
        points: &Points,
        node: u32,
        e: u32,
        k: u32,
    ) -> Result<Nearest<'_>, Refusal> {
        let scratch = self.buffers.scratch(&self.network, Words::S(k));
        let found = Found {
            ids: &mut self.ids,
            distances: &mut self.distances,
        };
        let network = self.network.lend();
        let listing = calls::nearest(network, points.marks(), node, e, k, scratch, found);
        let length = listing.accepted()?.length;
        let (ids, distances) = (&self.ids[..length], &self.distances[..length]);
        Ok(Nearest::in_places(ids, distances))
    }

    /// Document 01: "Verify: for a marked p and q, yes or no by the rule above", the rule of the
    /// list for q and k. p is marked where it has a locker; the answer is the same for each there.
    /// Document 02 (Ask 6): "Verify of the point on q says no."
    ///
    /// ```
    /// use overlap::{Engine, Network, Points, Refusal};
    ///
    /// # fn main() -> Result<(), Refusal> {
    /// // Network N of document 01.
    /// let roads = [(0, 1, 4), (0, 3, 5), (1, 2, 3), (2, 4, 7), (3, 4, 3)];
    /// let network = Network::from_roads(6, &roads)?;
    /// let points = Points::on(&network, [2, 4, 5])?;
    /// let mut engine = Engine::new(&network);
    ///
    /// // Point 2 is nearer to 4 (7) than site 0 is (8): no for k = 1, yes for k = 2.
    /// assert!(!engine.verify(&points, 4, 0, 1)?);
    /// assert!(engine.verify(&points, 4, 0, 2)?);
    ///
    /// // With two lockers on node 2, each has the other at distance 0, nearer than site 0.
    /// let two = Points::on(&network, [2, 2, 4, 5])?;
    /// assert!(engine.verify(&points, 2, 0, 1)?);
    /// assert!(!engine.verify(&two, 2, 0, 1)?);
    /// assert!(engine.verify(&two, 2, 0, 2)?);
    /// // From a site on node 2 itself both get no.
    /// assert!(!engine.verify(&two, 2, 2, 16)?);
    ///
    /// // Node 3 has no locker, whether or not the site is on it.
    /// assert_eq!(engine.verify(&points, 3, 0, 1), Err(Refusal::Mark));
    /// assert_eq!(engine.verify(&points, 3, 3, 1), Err(Refusal::Mark));
    /// # Ok(())
    /// # }
    /// ```
    ///
    /// # Errors
    ///
    /// The first condition met of 6, 7, 9 and 11.
    pub fn verify(&mut self, points: &Points, p: u32, q: u32, k: u32) -> Result<bool, Refusal> {
        let scratch = self.buffers.scratch(&self.network, Words::Eager);
        calls::verify(self.network.lend(), points.marks(), p, q, k, scratch).accepted()
    }

    /// Document 01: "Eager (000, Fig. 4): expands outward from q, stops behind a node with k points
    /// strictly nearer than q. It takes a 32-bit limit and returns the list and the count of nodes
    /// expanded."
    ///
    /// All lockers of a node count as points here. A limit of n or more is never exceeded.
    ///
    /// Document 02 (Ask 4): "Map editors step through an expansion and want the same steps on both
    /// machines. Eager also lists the nodes that its count counts, by distance from the site and then
    /// by node".
    ///
    /// ```
    /// use overlap::{Engine, Network, Points, Refusal};
    ///
    /// # fn main() -> Result<(), Refusal> {
    /// // Network N of document 01.
    /// let roads = [(0, 1, 4), (0, 3, 5), (1, 2, 3), (2, 4, 7), (3, 4, 3)];
    /// let network = Network::from_roads(6, &roads)?;
    /// let points = Points::on(&network, [2, 4, 5])?;
    /// let mut engine = Engine::new(&network);
    /// let expansion = engine.eager(&points, 0, 2, 4)?;
    /// assert_eq!((expansion.points, expansion.expanded), (&[2, 4][..], 4));
    /// assert_eq!(expansion.visits, [0, 1, 3, 2]);
    ///
    /// // Four nodes are expanded, which is above 3.
    /// assert_eq!(engine.eager(&points, 0, 2, 3), Err(Refusal::Limit));
    /// # Ok(())
    /// # }
    /// ```
    ///
    /// # Errors
    ///
    /// The first condition met of 6, 7, 9 and 12.
    pub fn eager(
        &mut self,
        points: &Points,
        q: u32,
        k: u32,
        limit: u32,
    ) -> Result<Expansion<'_>, Refusal> {
        let [scratch, answers, visits] = self.buffers.of_eager(&self.network);
        let (network, marks) = (self.network.lend(), points.marks());
        let listing = calls::eager(network, marks, q, k, limit, scratch, answers, visits);
        let Listed { points, expanded } = self.listed(listing)?;
        let visits = self.buffers.visits(expanded);
        Ok(Expansion {
            points,
            expanded,
            visits,
        })
    }

    /// Document 01: "The short query: no k and no limit; eager with [...] limit 65,535." Document 02
    /// (Ask 10): it "takes k = 2 from now on". (Ask 4): it doesn't list the nodes that its count counts.
    ///
    /// By a table the same list is [`Table::query`](crate::Table::query) with k = 2, of a table with
    /// three places or more.
    ///
    /// ```
    /// use overlap::{Engine, Network, Points};
    ///
    /// # fn main() -> Result<(), overlap::Refusal> {
    /// // Network N of document 01.
    /// let roads = [(0, 1, 4), (0, 3, 5), (1, 2, 3), (2, 4, 7), (3, 4, 3)];
    /// let network = Network::from_roads(6, &roads)?;
    /// let points = Points::on(&network, [2, 4, 5])?;
    /// let mut engine = Engine::new(&network);
    /// // "P1 as a short query gives 2, 4."
    /// let listed = engine.short_query(&points, 0)?;
    /// assert_eq!((listed.points, listed.expanded), (&[2, 4][..], 4));
    /// # Ok(())
    /// # }
    /// ```
    ///
    /// # Errors
    ///
    /// The first condition met of 6 and 7.
    pub fn short_query(&mut self, points: &Points, q: u32) -> Result<Listed<'_>, Refusal> {
        let (scratch, answers) = self.buffers.both(&self.network, Words::Eager);
        let (network, marks) = (self.network.lend(), points.marks());
        let listing = calls::short_query(network, marks, q, scratch, answers);
        self.listed(listing)
    }

    /// Document 01: "Lazy (000, 3.3) [...]: the list." It is the list that [`eager`](Self::eager)
    /// gives.
    ///
    /// ```
    /// use overlap::{Engine, Network, Points};
    ///
    /// # fn main() -> Result<(), overlap::Refusal> {
    /// // Network N of document 01.
    /// let roads = [(0, 1, 4), (0, 3, 5), (1, 2, 3), (2, 4, 7), (3, 4, 3)];
    /// let network = Network::from_roads(6, &roads)?;
    /// let points = Points::on(&network, [2, 4, 5])?;
    /// assert_eq!(Engine::new(&network).lazy(&points, 0, 2)?, [2, 4]);
    /// # Ok(())
    /// # }
    /// ```
    ///
    /// # Errors
    ///
    /// The first condition met of 6, 7 and 9.
    pub fn lazy(&mut self, points: &Points, q: u32, k: u32) -> Result<&[u32], Refusal> {
        let (scratch, answers) = self.buffers.both(&self.network, Words::S(k));
        let (network, marks) = (self.network.lend(), points.marks());
        let listing = calls::lazy(network, marks, q, k, scratch, answers);
        Ok(self.listed(listing)?.points)
    }

    /// Document 01: "[...] and lazy-EP (000, 4.2): the list." It is the list that
    /// [`eager`](Self::eager) gives.
    ///
    /// ```
    /// use overlap::{Engine, Network, Points};
    ///
    /// # fn main() -> Result<(), overlap::Refusal> {
    /// // Network N of document 01.
    /// let roads = [(0, 1, 4), (0, 3, 5), (1, 2, 3), (2, 4, 7), (3, 4, 3)];
    /// let network = Network::from_roads(6, &roads)?;
    /// let points = Points::on(&network, [2, 4, 5])?;
    /// // The locker on node 4 itself isn't listed for a site there.
    /// assert_eq!(Engine::new(&network).lazy_ep(&points, 4, 1)?, [2]);
    /// # Ok(())
    /// # }
    /// ```
    ///
    /// # Errors
    ///
    /// The first condition met of 6, 7 and 9.
    pub fn lazy_ep(&mut self, points: &Points, q: u32, k: u32) -> Result<&[u32], Refusal> {
        let (scratch, answers) = self.buffers.both(&self.network, Words::S(k));
        let (network, marks) = (self.network.lend(), points.marks());
        let listing = calls::lazy_ep(network, marks, q, k, scratch, answers);
        Ok(self.listed(listing)?.points)
    }

    /// The households that a site at q wins. Document 02 (Ask 1): "A household is listed for q exactly
    /// if it can be reached and fewer than k sites are strictly nearer to it than q".
    ///
    /// "Two byte arrays are lent, households and sites, both laid out as points": [`Points`] hold them,
    /// and each household and each site of a node counts. q is any node, with a site or without. The
    /// list names nodes, each once, those with a household. (Ask 6): "Households on a site's node in
    /// Ask 1 still belong to the site."
    ///
    /// ```
    /// use overlap::{Engine, Network, Points};
    ///
    /// # fn main() -> Result<(), overlap::Refusal> {
    /// // Network N of document 01.
    /// let roads = [(0, 1, 4), (0, 3, 5), (1, 2, 3), (2, 4, 7), (3, 4, 3)];
    /// let network = Network::from_roads(6, &roads)?;
    /// let households = Points::on(&network, [0, 1, 1, 3, 5, 5, 5])?;
    /// let sites = Points::on(&network, [2, 4, 5])?;
    /// let mut engine = Engine::new(&network);
    ///
    /// // The site on node 2 is the nearest of nodes 0 and 1, the one on 5 of its own node.
    /// assert_eq!(engine.households(&households, &sites, 2, 1)?, [0, 1]);
    /// assert_eq!(engine.households(&households, &sites, 5, 1)?, [5]);
    ///
    /// // What a new site on node 0 would win, and for k = 2 those with one site nearer.
    /// assert_eq!(engine.households(&households, &sites, 0, 1)?, [0]);
    /// assert_eq!(engine.households(&households, &sites, 0, 2)?, [0, 1, 3]);
    ///
    /// // Two sites on node 2 are two that are nearer to node 1.
    /// let sites = Points::on(&network, [2, 2, 4, 5])?;
    /// assert_eq!(engine.households(&households, &sites, 0, 2)?, [0, 3]);
    /// # Ok(())
    /// # }
    /// ```
    ///
    /// # Errors
    ///
    /// The first condition met of 6, of the households or of the sites, 7 and 9.
    pub fn households(
        &mut self,
        households: &Points,
        sites: &Points,
        q: u32,
        k: u32,
    ) -> Result<&[u32], Refusal> {
        let (scratch, answers) = self.buffers.both(&self.network, Words::S(k));
        let (network, bytes) = (self.network.lend(), [households.marks(), sites.marks()]);
        let listing = calls::households(network, bytes[0], bytes[1], q, k, scratch, answers);
        Ok(self.listed(listing)?.points)
    }

    /// How many households each site wins. Document 02 (Ask 1): "A sheet call writes, for each node,
    /// the length of the list of a site there, 0 without a site". (Ask 10): "the sheet now names 1
    /// itself", for the k of these lists. (Ask 8): "A sheet's length counts each household on a listed
    /// node."
    ///
    /// The entry of a node with a site is the number of households on the nodes that
    /// [`households`](Self::households) lists for it with k = 1. Where two sites are equally near to a
    /// household, both count it.
    ///
    /// What it adds up to (Ask 13): the sum of the entries, "each entry taken once for each site there", is
    /// "the number of lists that each household stands on, added over all households". A household that
    /// reaches a site stands on at least one, and on one alone exactly if it reaches no other or its
    /// nearest and next nearest are at different distances. The sum may need more than 32 bits.
    ///
    /// ```
    /// use overlap::{Engine, Network, Points};
    ///
    /// # fn main() -> Result<(), overlap::Refusal> {
    /// // Network N of document 01.
    /// let roads = [(0, 1, 4), (0, 3, 5), (1, 2, 3), (2, 4, 7), (3, 4, 3)];
    /// let network = Network::from_roads(6, &roads)?;
    /// let households = Points::on(&network, [0, 1, 1, 3, 5, 5, 5])?;
    /// let sites = Points::on(&network, [2, 4, 5])?;
    /// let mut engine = Engine::new(&network);
    /// // The site on node 2 wins the household on node 0 and the two on node 1.
    /// assert_eq!(engine.sheet(&households, &sites)?, [0, 0, 3, 0, 1, 3]);
    ///
    /// // Nodes 0 and 4 are both 7 from node 2, so sites there both count its household.
    /// let (households, sites) = (Points::on(&network, [2])?, Points::on(&network, [0, 4])?);
    /// assert_eq!(engine.sheet(&households, &sites)?, [1, 0, 0, 0, 1, 0]);
    ///
    /// // Two sites on node 4: each household on node 2 stands on three lists, that on 3 on two, those on
    /// // 1 and 5 on one.
    /// let households = Points::on(&network, [1, 2, 2, 3, 5, 5, 5])?;
    /// let sites = Points::on(&network, [0, 4, 4, 5])?;
    /// let entries = engine.sheet(&households, &sites)?;
    /// assert_eq!(entries, [3, 0, 0, 0, 3, 3]);
    /// let taken = entries.iter().zip(sites.marks());
    /// let sum: u64 = taken.map(|(&entry, &there)| u64::from(entry) * u64::from(there)).sum();
    /// assert_eq!(sum, 2 * 3 + 2 + (1 + 3));
    /// # Ok(())
    /// # }
    /// ```
    ///
    /// # Errors
    ///
    /// 6, of the households or of the sites.
    pub fn sheet(&mut self, households: &Points, sites: &Points) -> Result<&[u32], Refusal> {
        let (scratch, answers) = self.buffers.both(&self.network, Words::S(1));
        let (network, bytes) = (self.network.lend(), [households.marks(), sites.marks()]);
        let number = calls::sheet(network, bytes[0], bytes[1], scratch, answers);
        accepted(number)?;
        Ok(answers)
    }

    /// The lockers that any stop of a route touches. Document 02 (Ask 7): "The input is a list of nodes,
    /// each joined by a road to the one after it. Listed is the union of what the single nodes receive,
    /// without the points that stand on the route itself."
    ///
    /// What a single node receives is the list that [`eager`](Self::eager) gives, and on a route of one
    /// node this is that list. The route may come to a node several times.
    ///
    /// ```
    /// use overlap::{Engine, Network, Points, Refusal};
    ///
    /// # fn main() -> Result<(), Refusal> {
    /// // Network N of document 01.
    /// let roads = [(0, 1, 4), (0, 3, 5), (1, 2, 3), (2, 4, 7), (3, 4, 3)];
    /// let network = Network::from_roads(6, &roads)?;
    /// let points = Points::on(&network, [2, 4, 5])?;
    /// let mut engine = Engine::new(&network);
    ///
    /// // For k = 1 a site on node 3 receives 4, one on 0 or 1 receives 2.
    /// assert_eq!(engine.route(&points, &[3, 0, 1], 1)?, [2, 4]);
    /// assert_eq!(engine.route(&points, &[0], 1)?, [2]);
    ///
    /// // To the junction of a locker and back: it stands on the route itself.
    /// assert_eq!(engine.route(&points, &[0, 1, 2, 1], 1)?, [4]);
    ///
    /// // No road joins 0 and 2.
    /// assert_eq!(engine.route(&points, &[1, 0, 2], 1), Err(Refusal::Route));
    /// # Ok(())
    /// # }
    /// ```
    ///
    /// # Errors
    ///
    /// The first condition met of 6, 7, 9 and 14.
    pub fn route(&mut self, points: &Points, route: &[u32], k: u32) -> Result<&[u32], Refusal> {
        let (scratch, answers) = self.buffers.both(&self.network, Words::S(k));
        let (network, marks) = (self.network.lend(), points.marks());
        let listing = calls::route(network, marks, route, k, scratch, answers);
        Ok(self.listed(listing)?.points)
    }

    /// The list that a search has put into the answers.
    fn listed(&self, listing: Listing) -> Result<Listed<'_>, Refusal> {
        let Listing { count, length, .. } = listing.accepted()?;
        Ok(Listed {
            points: self.buffers.answers(length),
            expanded: count,
        })
    }
}
