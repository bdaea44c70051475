/* Put before the programs of the instances and of the recorded cases: what the archive has, they run over the archive instead of
   the second program. A listing stays the second program's, for the archive has none. */
#define second_read archive_read
#define second_read_tolerant archive_read_tolerant
#define second_ones archive_ones
#define second_write archive_write
#define second_present archive_present
#define second_payload archive_payload
#define second_number_decode archive_number_decode
#define second_number_encode archive_number_encode
#define second_date_decode archive_date_decode
#define second_date_encode archive_date_encode
#define second_lookup archive_lookup
#define second_which archive_which
#define second_relay archive_relay
#define second_figures_add archive_figures_add
#define second_figures_join archive_figures_join
#define second_figures_report archive_figures_report
