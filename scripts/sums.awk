# Of a trace: for each send in order what tshark must say of its outer UDP checksum, 1 (good) of a packet that a rule seals and 3 (not present) of any other.
$1 == "egress" && / sealed / { sealed[$3] = 1; next }
$1 ~ /^(egress|sealed|route|redirect|ingress)$/ && $NF == "queued" { print $3 in sealed ? 1 : 3 }
