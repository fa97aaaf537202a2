
// Appended to 000 as it stands, for compare/plans.rs and differences.rs: 000's plan is private, and `next` is asked of any plan.
impl Planner {
    pub fn damaged(plan: Plan) -> Planner {
        Planner { statements: Vec::new(), plan: plan }
    }
}
