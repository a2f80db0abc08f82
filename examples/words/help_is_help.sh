diff <(./stc help) <(./stc --help) && diff <(./stc help check) <(./stc check --help) && diff <(./stc help run) <(./stc run --help)
