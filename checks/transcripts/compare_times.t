What `reports compare` prints of averages and of times. Beyond a quarter they are slower or faster, or beyond the factor of
`--slower`.

  $ compare() {
  >     reports compare old new >listed 2>said; local status=$?
  >     reports compare --missing old new >all 2>same; [ $? = $status ] || echo "--missing has another status"
  >     cat listed; cat said >&2; cmp said same; cmp listed all
  >     return $status
  > }

Averages. A difference within the deviations of both is one by chance.

  $ report 'bench b: 1234' >old; report 'bench b: 2345' >new; compare
  slower: b: 1,234 -> 2,345 ns/iter (1.90)
  0 new failure; 0 regressed; 0 missing; 0 not run; 0 new; 0 not run before; 0 newly ignored; 0 newly passing; 0 another message; 0 still failing; 1 unchanged; 1 slower; 0 faster
  $ report 'bench b: 2345' >old; report 'bench b: 1234' >new; compare
  faster: b: 2,345 -> 1,234 ns/iter (0.53)
  0 new failure; 0 regressed; 0 missing; 0 not run; 0 new; 0 not run before; 0 newly ignored; 0 newly passing; 0 another message; 0 still failing; 1 unchanged; 0 slower; 1 faster
  $ report 'bench b: 200' >old; report 'bench b: 1' >new; compare
  faster: b: 200 -> 1 ns/iter (0.01)
  0 new failure; 0 regressed; 0 missing; 0 not run; 0 new; 0 not run before; 0 newly ignored; 0 newly passing; 0 another message; 0 still failing; 1 unchanged; 0 slower; 1 faster
  $ report 'bench b: 201' >old; report 'bench b: 1' >new; compare
  faster: b: 201 -> 1 ns/iter (0.00)
  0 new failure; 0 regressed; 0 missing; 0 not run; 0 new; 0 not run before; 0 newly ignored; 0 newly passing; 0 another message; 0 still failing; 1 unchanged; 0 slower; 1 faster
  $ report 'bench b: 0' >old; report 'bench b: 5' >new; compare
  slower: b: 0 -> 5 ns/iter (-)
  0 new failure; 0 regressed; 0 missing; 0 not run; 0 new; 0 not run before; 0 newly ignored; 0 newly passing; 0 another message; 0 still failing; 1 unchanged; 1 slower; 0 faster
  $ report 'bench [k] a: 0 0' >old; report 'bench [k] a: 1234 5' >new; compare
  slower: [k] a: 0 -> 1,234 ns/iter (-)
  0 new failure; 0 regressed; 0 missing; 0 not run; 0 new; 0 not run before; 0 newly ignored; 0 newly passing; 0 another message; 0 still failing; 1 unchanged; 1 slower; 0 faster
  $ report 'bench b: 1' >old; report 'bench b: 18446744073709551615' >new; compare
  slower: b: 1 -> 18,446,744,073,709,551,615 ns/iter (18446744073709551615.00)
  0 new failure; 0 regressed; 0 missing; 0 not run; 0 new; 0 not run before; 0 newly ignored; 0 newly passing; 0 another message; 0 still failing; 1 unchanged; 1 slower; 0 faster
  $ cp new old; compare
  0 new failure; 0 regressed; 0 missing; 0 not run; 0 new; 0 not run before; 0 newly ignored; 0 newly passing; 0 another message; 0 still failing; 1 unchanged; 0 slower; 0 faster
  $ report 'bench b: 1' >old; report 'bench b: 2' >new; compare
  0 new failure; 0 regressed; 0 missing; 0 not run; 0 new; 0 not run before; 0 newly ignored; 0 newly passing; 0 another message; 0 still failing; 1 unchanged; 0 slower; 0 faster
  $ report 'bench b: 1' >old; report 'bench b: 3' >new; compare
  slower: b: 1 -> 3 ns/iter (3.00)
  0 new failure; 0 regressed; 0 missing; 0 not run; 0 new; 0 not run before; 0 newly ignored; 0 newly passing; 0 another message; 0 still failing; 1 unchanged; 1 slower; 0 faster
  $ report 'bench [k] a: 1234 5' >old; report 'bench [k] a: 2468 1234' >new; compare
  0 new failure; 0 regressed; 0 missing; 0 not run; 0 new; 0 not run before; 0 newly ignored; 0 newly passing; 0 another message; 0 still failing; 1 unchanged; 0 slower; 0 faster

They are compared only if each report has one row of the name, and measured it.

  $ report 'bench b: 1' 'bench b: 2' >old; report 'bench b: 1' >new; compare
  missing: b
  0 new failure; 0 regressed; 1 missing; 0 not run; 0 new; 0 not run before; 0 newly ignored; 0 newly passing; 0 another message; 0 still failing; 0 unchanged; 0 slower; 0 faster
  [101]
  $ report 'bench b: 1' 'bench b: 2' >old; report 'bench b: 2' 'bench b: 1' >new; compare
  0 new failure; 0 regressed; 0 missing; 0 not run; 0 new; 0 not run before; 0 newly ignored; 0 newly passing; 0 another message; 0 still failing; 1 unchanged; 0 slower; 0 faster
  $ report 'bench b: 1' >old; report 'ok b' >new; compare
  0 new failure; 0 regressed; 0 missing; 0 not run; 0 new; 0 not run before; 0 newly ignored; 0 newly passing; 0 another message; 0 still failing; 1 unchanged; 0 slower; 0 faster
  $ report 'bench [k] a: 1234 5' >old; report 'ok [k] a' >new; compare
  0 new failure; 0 regressed; 0 missing; 0 not run; 0 new; 0 not run before; 0 newly ignored; 0 newly passing; 0 another message; 0 still failing; 1 unchanged; 0 slower; 0 faster

Times. A ratio of 1.25 is not beyond the factor, and times that differ by less than ten milliseconds are the same.

  $ report --took 4 'ok halved <2>' 'ok same <0.5>' 'ok few <0.001>' 'ok edge <1>' 'ok half <0.02>' \
  >     'ok [k] long <0.35>' 'ok none <0>' >old
  $ report --took 5 'ok halved <1>' 'ok same <0.5>' 'ok few <0.010999999>' 'ok edge <1.25>' 'ok half <0.03>' \
  >     'ok [k] long <1.4999995>' 'ok none <0.0104>' >new
  $ compare
  slower: none: 0.000s -> 0.010s (-)
  slower: [k] long: 0.350s -> 1.500s (4.29)
  slower: half: 0.020s -> 0.030s (1.50)
  faster: halved: 2.000s -> 1.000s (0.50)
  0 new failure; 0 regressed; 0 missing; 0 not run; 0 new; 0 not run before; 0 newly ignored; 0 newly passing; 0 another message; 0 still failing; 7 unchanged; 3 slower; 1 faster
  $ report --took 4 'ok halved <1>' 'ok halved <1>' 'ok same' 'ok few' 'ok edge' 'ok half' 'ok [k] long' 'ok none' >new; compare
  new: halved
  0 new failure; 0 regressed; 0 missing; 0 not run; 1 new; 0 not run before; 0 newly ignored; 0 newly passing; 0 another message; 0 still failing; 6 unchanged; 0 slower; 0 faster
  $ report 'bench b: 1234 <1>' >old; report 'bench b: 2345 <2>' >new; compare
  slower: b: 1.000s -> 2.000s (2.00)
  slower: b: 1,234 -> 2,345 ns/iter (1.90)
  0 new failure; 0 regressed; 0 missing; 0 not run; 0 new; 0 not run before; 0 newly ignored; 0 newly passing; 0 another message; 0 still failing; 1 unchanged; 2 slower; 0 faster

A time in one report alone is no change.

  $ sums >old; report 'ok 1 + 1 <1>' 'failed 2 + 2: assertion `left == right` failed\n  left: 4\n right: 5 <0.35>' \
  >     'ok 7 + 0 <18446744073.709551615>' >new; compare
  0 new failure; 0 regressed; 0 missing; 0 not run; 0 new; 0 not run before; 0 newly ignored; 0 newly passing; 0 another message; 1 still failing; 2 unchanged; 0 slower; 0 faster
  $ mv new timed; mv old new; mv timed old; compare
  0 new failure; 0 regressed; 0 missing; 0 not run; 0 new; 0 not run before; 0 newly ignored; 0 newly passing; 0 another message; 1 still failing; 2 unchanged; 0 slower; 0 faster

The factor.

  $ report 'bench b: 100' 'bench [k] c: 1000' 'ok p <1>' 'ok q <0.1>' 'ok r <0.02>' 'ok s <2>' >old
  $ report 'bench b: 102' 'bench [k] c: 1251' 'ok p <1.25>' 'ok q <0.01>' 'ok r <0.029999999>' 'ok s <3.5>' >new
  $ compare
  slower: s: 2.000s -> 3.500s (1.75)
  slower: [k] c: 1,000 -> 1,251 ns/iter (1.25)
  faster: q: 0.100s -> 0.010s (0.10)
  0 new failure; 0 regressed; 0 missing; 0 not run; 0 new; 0 not run before; 0 newly ignored; 0 newly passing; 0 another message; 0 still failing; 6 unchanged; 2 slower; 1 faster
  $ reports compare --slower 1 old new
  slower: s: 2.000s -> 3.500s (1.75)
  slower: [k] c: 1,000 -> 1,251 ns/iter (1.25)
  slower: p: 1.000s -> 1.250s (1.25)
  slower: b: 100 -> 102 ns/iter (1.02)
  faster: q: 0.100s -> 0.010s (0.10)
  0 new failure; 0 regressed; 0 missing; 0 not run; 0 new; 0 not run before; 0 newly ignored; 0 newly passing; 0 another message; 0 still failing; 6 unchanged; 4 slower; 1 faster
  $ reports compare --slower 1.0 old new
  slower: s: 2.000s -> 3.500s (1.75)
  slower: [k] c: 1,000 -> 1,251 ns/iter (1.25)
  slower: p: 1.000s -> 1.250s (1.25)
  slower: b: 100 -> 102 ns/iter (1.02)
  faster: q: 0.100s -> 0.010s (0.10)
  0 new failure; 0 regressed; 0 missing; 0 not run; 0 new; 0 not run before; 0 newly ignored; 0 newly passing; 0 another message; 0 still failing; 6 unchanged; 4 slower; 1 faster
  $ reports compare --slower 1.75 old new
  faster: q: 0.100s -> 0.010s (0.10)
  0 new failure; 0 regressed; 0 missing; 0 not run; 0 new; 0 not run before; 0 newly ignored; 0 newly passing; 0 another message; 0 still failing; 6 unchanged; 0 slower; 1 faster
  $ reports compare --slower 1.8 old new
  faster: q: 0.100s -> 0.010s (0.10)
  0 new failure; 0 regressed; 0 missing; 0 not run; 0 new; 0 not run before; 0 newly ignored; 0 newly passing; 0 another message; 0 still failing; 6 unchanged; 0 slower; 1 faster
  $ reports compare --slower 1.74 old new
  slower: s: 2.000s -> 3.500s (1.75)
  faster: q: 0.100s -> 0.010s (0.10)
  0 new failure; 0 regressed; 0 missing; 0 not run; 0 new; 0 not run before; 0 newly ignored; 0 newly passing; 0 another message; 0 still failing; 6 unchanged; 1 slower; 1 faster
  $ reports compare --slower 184467440737095516 old new
  0 new failure; 0 regressed; 0 missing; 0 not run; 0 new; 0 not run before; 0 newly ignored; 0 newly passing; 0 another message; 0 still failing; 6 unchanged; 0 slower; 0 faster

What is no factor of at least 1 with at most two decimals.

  $ for factor in 0 0.99 1.255 1. .5 +2 -2 1,5 two 1e1 ' 2' '' 184467440737095517; do
  >     reports compare --slower="$factor" old new; echo "status $?"
  > done
  status 2
  status 2
  status 2
  status 2
  status 2
  status 2
  status 2
  status 2
  status 2
  status 2
  status 2
  status 2
  status 2
  2> error: invalid value '0' for '--slower <FACTOR>': a factor is a number of at least 1 with at most two decimals
  2> 
  2> Usage: reports <COMMAND>
  2> 
  2> For more information, try '--help'.
  2> error: invalid value '0.99' for '--slower <FACTOR>': a factor is a number of at least 1 with at most two decimals
  2> 
  2> Usage: reports <COMMAND>
  2> 
  2> For more information, try '--help'.
  2> error: invalid value '1.255' for '--slower <FACTOR>': a factor is a number of at least 1 with at most two decimals
  2> 
  2> Usage: reports <COMMAND>
  2> 
  2> For more information, try '--help'.
  2> error: invalid value '1.' for '--slower <FACTOR>': a factor is a number of at least 1 with at most two decimals
  2> 
  2> Usage: reports <COMMAND>
  2> 
  2> For more information, try '--help'.
  2> error: invalid value '.5' for '--slower <FACTOR>': a factor is a number of at least 1 with at most two decimals
  2> 
  2> Usage: reports <COMMAND>
  2> 
  2> For more information, try '--help'.
  2> error: invalid value '+2' for '--slower <FACTOR>': a factor is a number of at least 1 with at most two decimals
  2> 
  2> Usage: reports <COMMAND>
  2> 
  2> For more information, try '--help'.
  2> error: invalid value '-2' for '--slower <FACTOR>': a factor is a number of at least 1 with at most two decimals
  2> 
  2> Usage: reports <COMMAND>
  2> 
  2> For more information, try '--help'.
  2> error: invalid value '1,5' for '--slower <FACTOR>': a factor is a number of at least 1 with at most two decimals
  2> 
  2> Usage: reports <COMMAND>
  2> 
  2> For more information, try '--help'.
  2> error: invalid value 'two' for '--slower <FACTOR>': a factor is a number of at least 1 with at most two decimals
  2> 
  2> Usage: reports <COMMAND>
  2> 
  2> For more information, try '--help'.
  2> error: invalid value '1e1' for '--slower <FACTOR>': a factor is a number of at least 1 with at most two decimals
  2> 
  2> Usage: reports <COMMAND>
  2> 
  2> For more information, try '--help'.
  2> error: invalid value ' 2' for '--slower <FACTOR>': a factor is a number of at least 1 with at most two decimals
  2> 
  2> Usage: reports <COMMAND>
  2> 
  2> For more information, try '--help'.
  2> error: invalid value '' for '--slower <FACTOR>': a factor is a number of at least 1 with at most two decimals
  2> 
  2> Usage: reports <COMMAND>
  2> 
  2> For more information, try '--help'.
  2> error: invalid value '184467440737095517' for '--slower <FACTOR>': a factor is a number of at least 1 with at most two decimals
  2> 
  2> Usage: reports <COMMAND>
  2> 
  2> For more information, try '--help'.
