# What the outside tests share: the count of what passed, and the file with the longest switch list.
passed=0
failed=0
result() {
  if [ "$2" -eq 0 ]; then
    passed=$((passed + 1))
    echo "$1: ok"
  else
    failed=$((failed + 1))
    echo "$1: FAILED"
  fi
}

# 64 servers of 999 ticks in a slot of 1,000.
longest() {
  echo 01400003E800000000000000000000
  for id in {0..63}; do printf '02%02X0003E70003E80003E8\n' "$id"; done
}
