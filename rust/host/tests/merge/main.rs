//! The compiled merge has no conditional jump but its loop's: the archive's own code is looked at, as it is linked.
//!
//! The merge is compiled into the exported deliver. Its loop is the one that loads a count of the matrix and stores it
//! again: no other loop of deliver has an element that is both loaded and stored. Where no such loop is found the test
//! fails, so that a compiler that lays it out otherwise is noticed.

mod listing;

use listing::{disassemble, loops, parse, Instruction};
use std::path::Path;

/// What is wrong with the merge in a function's code; none where each of its loops is as it must be.
fn fault(code: &[Instruction]) -> Option<String> {
    let merges = merge_loops(code);
    if merges.is_empty() {
        return Some("no loop loads and stores the same element".to_string());
    }
    merges.iter().find_map(|body| loop_fault(body))
}

/// The loops in which an element is loaded and stored behind it.
fn merge_loops(code: &[Instruction]) -> Vec<Vec<Instruction>> {
    loops(code).into_iter().filter(|body| has_pair(body)).collect()
}

/// Whether an element is loaded and stored behind it.
fn has_pair(body: &[Instruction]) -> bool {
    let stored = |from: usize, element| body[from..].iter().any(|later| later.stored() == Some(element));
    body.iter().enumerate().any(|(place, one)| one.loaded().is_some_and(|element| stored(place, element)))
}

/// What is wrong with a loop of the merge: a call, a conditional jump beside the loop's own, or one before the store.
fn loop_fault(body: &[Instruction]) -> Option<String> {
    let place = |found: &dyn Fn(&Instruction) -> bool| body.iter().rposition(found);
    let jumps = body.iter().filter(|one| one.is_conditional()).count();
    let reason = if body.iter().any(Instruction::is_call) {
        "a call".to_string()
    } else if jumps != 1 {
        format!("{jumps} conditional jumps")
    } else if place(&|one| one.is_conditional()) < place(&|one| one.stored().is_some()) {
        "a conditional jump in front of the store".to_string()
    } else {
        return None;
    };
    let lines: Vec<String> =
        body.iter().map(|one| format!("{:x}: {} {}", one.address, one.name, one.operands)).collect();
    Some(format!("the loop of the merge has {reason}:\n{}", lines.join("\n")))
}

#[test]
fn the_linked_merge_has_no_jump_but_its_loops() {
    let archive = Path::new(env!("CARGO_MANIFEST_DIR")).join("../../target/staticlib/libhost.a");
    let code = disassemble(&archive, "node_deliver");
    assert!(!code.is_empty(), "the archive has no node_deliver");
    if let Some(found) = fault(&code) {
        panic!("{found}");
    }
}

/// A merge as it must be, but for the line in place of `HERE`.
fn with_line(line: &str) -> Vec<Instruction> {
    let listing = "
 520:	movzbl 0x9(%r12,%rcx,1),%edx
 534:	movzbl 0x8(%r12,%rcx,1),%esi
 53a:	mov    0xa(%r12,%rcx,1),%edi
 542:	lea    (%rdx,%rsi,4),%edx
 545:	mov    0xac(%rsp,%rdx,4),%esi
HERE
 54c:	cmp    %edi,%esi
 54e:	cmova  %esi,%edi
 551:	mov    %edi,0xac(%rsp,%rdx,4)
 558:	add    $0x6,%rcx
 55c:	cmp    %rcx,%rax
 55f:	jne    520 <node_deliver+0x520>
";
    parse(&listing.replace("HERE", line))
}

#[test]
fn a_merge_without_another_jump_passes() {
    assert_eq!(fault(&with_line("")), None);
    assert_eq!(fault(&with_line(" 54a:	xor    %ebp,%ebp")), None);
}

#[test]
fn a_jump_back_a_jump_on_and_a_jump_out_are_found() {
    for target in ["520", "551", "558", "600"] {
        let found = fault(&with_line(&format!(" 54a:	je     {target} <node_deliver+0x{target}>"))).unwrap();
        assert!(found.starts_with("the loop of the merge has 2 conditional jumps:\n520: movzbl"), "{found}");
        assert!(found.contains(&format!("\n54a: je {target} ")), "{found}");
    }
}

#[test]
fn a_jump_by_a_table_is_found() {
    let found = fault(&with_line(" 54a:	jmp    *0x0(,%rdx,8)")).unwrap();
    assert!(found.starts_with("the loop of the merge has 2 conditional jumps:"), "{found}");
}

#[test]
fn a_call_is_found() {
    let found = fault(&with_line(" 54a:	call   700 <matrix::larger>")).unwrap();
    assert!(found.starts_with("the loop of the merge has a call:"), "{found}");
}

#[test]
fn a_test_of_the_loop_in_front_of_the_store_is_found() {
    let mut code = with_line(" 54a:	je     600 <node_deliver+0x600>");
    let last = code.last_mut().unwrap();
    (last.name, last.operands) = ("jmp".to_string(), "520 <node_deliver+0x520>".to_string());
    let found = fault(&code).unwrap();
    assert!(found.starts_with("the loop of the merge has a conditional jump in front of the store:"), "{found}");
}

/// Code behind the loop that jumps back in front of it, from where it is not reached, makes no loop; where it is reached
/// from there it does, with the loop and its jump inside.
#[test]
fn code_laid_behind_the_rest_is_no_loop() {
    let mut code = parse(" 510:\tje     600 <node_deliver+0x600>");
    code.extend(with_line(""));
    let seldom = " 561:\tret\n 600:\tcall   700 <memcpy>\n 605:\tjmp    520 <node_deliver+0x520>";
    code.extend(parse(seldom));
    assert_eq!(fault(&code), None);
    let place = code.iter().position(|one| one.name == "ret").unwrap();
    code[place] = parse(" 561:\tjne    600 <node_deliver+0x600>").remove(0);
    let found = fault(&code).unwrap();
    assert!(found.starts_with("the loop of the merge has a call:\n520: movzbl"), "{found}");
}

#[test]
fn a_listing_without_the_loop_is_found() {
    let mut code = with_line("");
    code.retain(|one| one.stored().is_none());
    assert_eq!(fault(&code).as_deref(), Some("no loop loads and stores the same element"));
    assert_eq!(fault(&[]).as_deref(), Some("no loop loads and stores the same element"));
}

#[test]
fn the_merge_that_tested_the_column_is_found() {
    let listing = "
 520:	add    $0x6,%rcx
 524:	cmp    %rcx,%rax
 527:	je     56c <node_deliver+0x56c>
 529:	movzbl 0x9(%r12,%rcx,1),%edx
 52f:	cmp    %bpl,%dl
 532:	je     520 <node_deliver+0x520>
 534:	movzbl 0x8(%r12,%rcx,1),%esi
 53a:	mov    0xa(%r12,%rcx,1),%edi
 53f:	lea    (%rsi,%rsi,2),%esi
 542:	lea    (%rdx,%rsi,4),%edx
 545:	mov    0xac(%rsp,%rdx,4),%esi
 54c:	cmp    %edi,%esi
 54e:	cmova  %esi,%edi
 551:	mov    %edi,0xac(%rsp,%rdx,4)
 558:	jmp    520 <node_deliver+0x520>
";
    let found = fault(&parse(listing)).unwrap();
    assert!(found.starts_with("the loop of the merge has 2 conditional jumps:"), "{found}");
}
