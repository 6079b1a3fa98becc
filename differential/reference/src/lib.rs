//! The reference: kernel.rs, prepare.rs and cost.rs, compiled where they stand and unchanged, with access code beside them.
#![allow(dead_code)]

pub mod doc;

splice::module_from! { "src/cost.rs" => pub mod cost {} }

splice::module_from! { "src/prepare.rs" => pub mod prepare {} }

splice::module_from! { "src/kernel.rs" => pub mod kernel {
    /// Code of the harness inside the reference's module, where it sees the private items. It calls them and alters none.
    pub mod access {
        use super::*;
        use crate::prepare::PreparedDoc;

        /// The number and the statistics where the solver stops with `CostDomainViolation`, which carries neither: the loop of
        /// `ExactSolver::solve` over the reference's own steps, and which of them stops.
        pub fn domain_violation<A>(
            prepared: &PreparedDoc<A>,
            options: RenderOptions,
            workspace: &mut RenderWorkspace,
        ) -> Option<(u32, SolveStats)> {
            workspace.reset_operation();
            let mut solver = ExactSolver::new(&prepared.0, options, workspace);
            let root = ExactTask::Eval { node: solver.data.root, column: 0, indent: 0 };
            solver.push_exact_task(root).ok()?;
            while let Some(task) = solver.workspace.exact_work.pop() {
                let before = (solver.workspace.retained.len(), solver.workspace.exact_pending.len());
                match solver.execute_task(task) {
                    Ok(()) => {}
                    Err(RenderError::CostDomainViolation) => return Some((past_in(&solver, task, before), solver.stats)),
                    Err(_) => return None,
                }
            }
            None
        }

        /// Document 02's number for what has no place in a task: a Nest's indent (25), a sum (26), else a column (11). In a Fill's gap it
        /// is a column unless a candidate of a finished frontier is not yet among the pending ones: its sum is what failed.
        fn past_in<A>(solver: &ExactSolver<'_, A>, task: ExactTask, before: (usize, usize)) -> u32 {
            match task {
                ExactTask::Eval { node, .. } => match solver.data.nodes[node.index()] {
                    PreparedNode::Nest { .. } => 25,
                    _ => 11,
                },
                ExactTask::ContinueSequence { .. } => {
                    let finished = solver.workspace.retained.len() - before.0;
                    let joined = solver.workspace.exact_pending.len() - before.1;
                    if joined < finished { 26 } else { 11 }
                }
                _ => 26,
            }
        }

        /// The items that the materializer takes off its stack for a page: one for each plan on the way, two for an Annotate.
        pub fn visits<A>(rendered: &RenderedRef<'_, '_, A>) -> u64 {
            let mut stack = vec![rendered.core.root];
            let mut visits = 0u64;
            while let Some(plan) = stack.pop() {
                visits += 1;
                match rendered.workspace.plan(plan) {
                    PlanNode::Empty | PlanNode::Text(_) | PlanNode::Newline { .. } => {}
                    PlanNode::Concat { left, right } => stack.extend([right, left]),
                    PlanNode::Annotate { child, .. } => {
                        visits += 1;
                        stack.push(child);
                    }
                    PlanNode::Penalty { child, .. } => stack.push(child),
                }
            }
            visits
        }

        pub fn memo_hash(node: u32, column: u32, indent: u32) -> u64 {
            super::memo_hash(MemoKey { node, column, indent })
        }

        pub fn memo_slots_for(entries: usize) -> Option<usize> {
            super::memo_slots_for(entries).ok()
        }

        /// What the builder of a frontier does with candidates (column, overflow, burden) in order: the survivors, in order, by their
        /// number of presentation; generated, pruned; and the tree in pre-order as (column, height).
        #[allow(clippy::type_complexity)]
        pub fn present_all(list: &[(u32, u128, u64)]) -> (Vec<usize>, u64, u64, Vec<(u32, u16)>) {
            let data: PreparedData<()> = crate::access::empty_data();
            let exact = ExactSolveCapacity::new(0, 0, list.len(), 0);
            let capacity = RenderCapacity { exact, ..RenderCapacity::default() };
            let mut workspace = RenderWorkspace::fixed(capacity).expect("room");
            let options = RenderOptions::new(NonZeroU32::MIN);
            let mut solver = ExactSolver::new(&data, options, &mut workspace);
            solver.begin_builder();
            for (index, (last, overflow, burden)) in list.iter().enumerate() {
                let cost = ConsumerCost { overflow: *overflow, burden: *burden };
                let plan = PendingPlan::Existing(PlanId(index as u32));
                solver.present(ScratchCandidate { cost, last: *last, precedence: 0, plan }).expect("room");
            }
            let mut survivors = Vec::new();
            let mut cursor = solver.workspace.scratch_head;
            while let Some(slot) = cursor {
                let slot = &solver.workspace.scratch[slot as usize];
                survivors.push(slot.candidate.precedence as usize);
                cursor = slot.precedence_next;
            }
            let mut tree = Vec::new();
            let mut stack = vec![solver.workspace.scratch_root];
            while let Some(slot) = stack.pop() {
                if let Some(slot) = slot {
                    let slot = &solver.workspace.scratch[slot as usize];
                    tree.push((slot.candidate.last, slot.height));
                    stack.push(slot.right);
                    stack.push(slot.left);
                }
            }
            (survivors, solver.stats.candidates_generated, solver.stats.candidates_pruned, tree)
        }
    }
} }

pub mod access;
