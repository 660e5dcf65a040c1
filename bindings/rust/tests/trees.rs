//! Trees beside plain lists of parents and children; degrees of no tree, lists, owners, blocks that are spoilt or cut.
mod common;
use bitm_proved::{
    bytes_of, BuildError, EliasFano, IndexView, Kind, ListError, SequenceView, StoredError, Tree, TreeView,
    WrongTables, NO_ANSWER,
};
use common::{any_owner, other_kind, says, with_any_words, with_one_bit_changed, Fickle, Random};
use std::panic::{RefUnwindSafe, UnwindSafe};
use std::sync::Arc;

/// The degrees of a drawn tree: a node has up to `most` children, as long as there are nodes left.
fn drawn(count: usize, most: usize, random: &mut Random) -> Vec<u64> {
    let (mut degrees, mut known) = (Vec::new(), 1);
    for node in 0..count {
        let degree = random.below(most + 1).max(usize::from(known == node + 1)).min(count - known);
        degrees.push(degree as u64);
        known += degree;
    }
    degrees
}

/// The parent of each node and its rank among its siblings, none of the root, and the children of each.
struct Plain {
    parents: Vec<Option<usize>>,
    ranks: Vec<Option<usize>>,
    children: Vec<Vec<usize>>,
}

fn plain_of(degrees: &[u64]) -> Plain {
    let (mut parents, mut ranks) = (vec![None], vec![None]);
    let mut children = vec![Vec::new(); degrees.len()];
    for (node, degree) in degrees.iter().enumerate() {
        for k in 0..*degree as usize {
            children[node].push(parents.len());
            parents.push(Some(node));
            ranks.push(Some(k));
        }
    }
    Plain { parents, ranks, children }
}

fn sibling(plain: &Plain, node: usize, by: isize) -> Option<usize> {
    let (parent, rank) = (plain.parents[node]?, plain.ranks[node]?);
    plain.children[parent].get(rank.checked_add_signed(by)?).copied()
}

fn as_plain_lists(tree: &TreeView<'_>, degrees: &[u64]) {
    let plain = plain_of(degrees);
    assert_eq!((tree.len(), tree.is_empty(), tree.check()), (degrees.len(), false, true));
    for (node, children) in plain.children.iter().enumerate() {
        assert_eq!((tree.parent(node), tree.child_rank(node)), (plain.parents[node], plain.ranks[node]));
        assert_eq!((tree.degree(node), tree.is_leaf(node)), (Some(children.len()), Some(children.is_empty())));
        assert!(tree.children(node).eq(children.iter().copied()));
        for k in 0..children.len() + 2 {
            assert_eq!(tree.child(node, k), children.get(k).copied());
        }
        assert_eq!(tree.next_sibling(node), sibling(&plain, node, 1));
        assert_eq!(tree.previous_sibling(node), sibling(&plain, node, -1));
    }
    for node in [degrees.len(), 1 << 63, usize::MAX] {
        assert_eq!((tree.parent(node), tree.degree(node), tree.is_leaf(node)), (None, None, None));
        assert_eq!((tree.next_sibling(node), tree.previous_sibling(node), tree.child_rank(node)), (None, None, None));
        assert_eq!((tree.child(node, 0), tree.child(0, node), tree.children(node)), (None, None, 0..0));
    }
}

fn lists(tree: &Tree, degrees: &[u64], random: &mut Random) {
    let plain = plain_of(degrees);
    let nodes: Vec<usize> = (0..degrees.len() + 1).collect();
    let ks: Vec<usize> = nodes.iter().map(|_| random.below(3)).collect();
    let mut out = vec![0; nodes.len()];
    let or_none = |it: Option<usize>| it.unwrap_or(NO_ANSWER);
    assert_eq!(tree.parent_list(&nodes, &mut out), Ok(2));
    assert!(out.iter().copied().eq(plain.parents.iter().copied().chain([None]).map(or_none)));
    assert_eq!(tree.degree_list(&nodes, &mut out), Ok(1));
    assert!(out.iter().copied().eq(degrees.iter().map(|it| *it as usize).chain([NO_ANSWER])));
    let child = |(node, k): (&usize, &usize)| plain.children.get(*node).and_then(|it| it.get(*k)).copied();
    let wanted: Vec<usize> = nodes.iter().zip(&ks).map(child).map(or_none).collect();
    let missing = wanted.iter().filter(|it| **it == NO_ANSWER).count();
    assert_eq!((tree.child_list(&nodes, &ks, &mut out), &out), (Ok(missing), &wanted));
    let (queries, room) = (nodes.len(), nodes.len() - 1);
    let short = Err(ListError::Lengths { queries, room });
    assert_eq!(tree.parent_list(&nodes, &mut out[1..]), short);
    assert_eq!(tree.degree_list(&nodes, &mut out[1..]), short);
    assert_eq!(tree.child_list(&nodes, &ks, &mut out[1..]), short);
    let pairs = Err(ListError::Pairs { first: queries, second: room });
    assert_eq!(tree.child_list(&nodes, &ks[1..], &mut out), pairs);
    assert_eq!((tree.parent_list(&[], &mut []), tree.child_list(&[], &[], &mut [])), (Ok(0), Ok(0)));
}

#[test]
fn answers_are_those_of_plain_lists() {
    let mut random = Random(31);
    let mut all: Vec<Vec<u64>> = (1..40).map(|count| drawn(count, 1 + count % 4, &mut random)).collect();
    all.extend([1, 3, 60].map(|most| drawn(1100, most, &mut random)));
    all.push([vec![499], vec![0; 499]].concat());
    for degrees in all {
        let tree = Tree::build(&degrees).expect("a tree");
        as_plain_lists(tree.view(), &degrees);
        lists(&tree, &degrees, &mut random);
        as_plain_lists(TreeView::from_bytes(bytes_of(tree.block())).as_ref().expect("aligned"), &degrees);
        as_plain_lists(tree.clone().view(), &degrees);
    }
}

#[test]
fn degrees_of_no_tree_are_refused() {
    let most = u64::MAX;
    let refused = [
        (&[][..], None),
        (&[0, 0], Some(1)),
        (&[1, 1], Some(1)),
        (&[0, 1], Some(1)),
        (&[2, 0], Some(0)),
        (&[1, 0, 1], Some(2)),
        (&[2, 0, 1], Some(2)),
        (&[2, 0, 0, 0], Some(3)),
        (&[most, 1], Some(0)),
        (&[most, 2], Some(0)),
    ];
    for (degrees, node) in refused {
        assert_eq!(Tree::build(degrees).err(), Some(BuildError::NotATree { node }));
    }
    assert_eq!(
        [Some(3), None].map(|node| BuildError::NotATree { node }.to_string()),
        [
            "node 3 is a child of no node before it, or has more children than there are nodes left",
            "there are no degrees: a tree has a root",
        ]
    );
    let pairs = ListError::Pairs { first: 3, second: 2 };
    assert_eq!(pairs.to_string(), "the lists of pairs have 3 and 2 numbers");
}

#[test]
fn any_owner_has_a_tree_in_its_words_or_bytes() {
    let degrees = drawn(300, 4, &mut Random(32));
    let file = Tree::build(&degrees).expect("a tree").into_owner();
    any_owner!(Tree, TreeView, file, "Tree { nodes: 300 }", |tree: &TreeView<'_>| as_plain_lists(tree, &degrees));
}

#[test]
fn an_owner_that_borrows_other_words_does_no_harm() {
    let (degrees, other) = (drawn(300, 4, &mut Random(33)), vec![1]);
    let block = Tree::build(&degrees).expect("a tree").into_owner();
    let tree = Tree::from_words(Fickle(block, other, false.into())).expect("the first words");
    as_plain_lists(tree.view(), &degrees);
}

#[test]
fn trees_are_send_sync_and_unwind_safe() {
    fn all<T: Send + Sync + UnwindSafe + RefUnwindSafe>() {}
    all::<(Tree, Tree<Arc<[u64]>>, Tree<&[u8]>, TreeView<'_>)>();
    let degrees = drawn(2000, 3, &mut Random(34));
    let tree = Tree::build(&degrees).expect("a tree");
    std::thread::scope(|threads| {
        for _ in 0..4 {
            threads.spawn(|| as_plain_lists(tree.view(), &degrees));
        }
    });
}

/// Answers of a block that may hold anything: inside, or an error. How many errors.
fn inside(tree: &TreeView<'_>) -> usize {
    let (len, mut wrong) = (tree.len(), 0);
    for node in 0..=len {
        let found = [
            tree.checked_parent(node),
            tree.checked_child(node, 0),
            tree.checked_child(node, 2),
            tree.checked_degree(node),
            tree.checked_next_sibling(node),
            tree.checked_previous_sibling(node),
            tree.checked_child_rank(node),
        ];
        assert!(found.iter().all(|it| it.map_or(true, |it| it.is_none_or(|it| it < len))));
        assert!(found[0].map_or(true, |it| it.is_none_or(|it| it < node)));
        wrong += found.iter().filter(|it| **it == Err(WrongTables)).count();
        wrong += usize::from(tree.checked_is_leaf(node).is_err()) + usize::from(tree.checked_children(node).is_err());
    }
    let (nodes, mut out) = ((0..=len).collect::<Vec<_>>(), vec![0; len + 1]);
    if let Err(why) = tree.degree_list(&nodes, &mut out) {
        assert!(matches!(why, ListError::WrongTables { wrong } if wrong > 0));
    }
    wrong
}

#[test]
fn each_changed_word_is_seen_and_never_leads_outside() {
    let mut random = Random(35);
    let good = Tree::build(&drawn(90, 4, &mut random)).expect("a tree").into_owner();
    let mut wrong = 0;
    with_one_bit_changed(&good, 1, |block, in_header| match TreeView::from_words(block) {
        Err(why) => assert_eq!((why, in_header), (StoredError::NotWhole, true)),
        Ok(tree) => {
            assert!(!in_header && !tree.check());
            wrong += inside(&tree);
        }
    });
    with_any_words(&good, &mut random, |block, _| {
        wrong += inside(&TreeView::from_words(block).expect("the header is right"));
    });
    assert!(wrong > 0);
}

#[test]
fn files_that_are_cut_or_of_another_kind_are_refused() {
    let good = Tree::build(&drawn(90, 4, &mut Random(36))).expect("a tree").into_owner();
    for end in 0..good.len() {
        assert_eq!(TreeView::from_words(&good[..end]).err(), Some(StoredError::NotWhole));
    }
    assert_eq!(Tree::from_bytes(&bytes_of(&good)[1..]).err(), Some(StoredError::Misaligned));
    assert_eq!(IndexView::from_words(&good).err(), other_kind(Kind::Tree, Kind::Index));
    assert_eq!(SequenceView::from_words(&good).err(), other_kind(Kind::Tree, Kind::Sequence));
    let other = EliasFano::build(&[2, 3, 5]).expect("sorted").to_stored().expect("memory");
    assert_eq!(Tree::from_words(other).err(), other_kind(Kind::Sequence, Kind::Tree));
}

#[test]
fn a_query_of_a_spoilt_block_panics_and_says_why() {
    let mut block = Tree::build(&[2, 0, 1, 0]).expect("a tree").into_owner();
    block[32] = 0; // no bit of the tree is 1, and the tables say that some are
    let tree = Tree::from_words(block).expect("the header is right");
    let found = (0..4).map(|node| tree.view().checked_parent(node)).position(|it| it.is_err());
    let node = found.expect("some query sees it");
    assert_eq!(says(move || assert_eq!(tree.parent(node), None)), "the tables do not match the words");
}
