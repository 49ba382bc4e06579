var 6..10: x ::add_to_output;

solve maximize x;
