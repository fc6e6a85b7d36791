# src/step.rs: a join that completes is killed at 16, not helped at 40.
/Check::Completing(main) => {/,/}/s/Go(40)/Go(16)/
