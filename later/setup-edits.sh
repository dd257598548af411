#!/bin/bash
# reads first errors one by one
cd /work/setup
for pair in record:sides_before_the_centre record:version_two record:one_sample_more record:writer_room_of_the_centre record:neighbours_first record:length_of_all_sides record:side_numbers_dropped record:numbers_dropped record:subdivisions_before_version judge:setups_after_samples judge:unnamed_side_compared judge:side_number_dropped; do
  SRC=/work/setup /tmp/help/go python3 /tmp/help/edit.py ${pair%%:*} ${pair##*:}
done
