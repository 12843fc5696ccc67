"""The protocol of Gitea's runners (`runner.v1.RunnerService` over Connect), so that `act_runner` and Forgejo's runner
can take legs."""
