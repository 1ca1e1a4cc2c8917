"""What `trial` tries, a file for each kind of danger, and the stage on which it is played."""

from cases.copies import copied_folder, restored_folder, two_at_once
from cases.floods import flooding_member, silent_links, unread_terminal
from cases.journals import full_disk, journals
from cases.leaving import leaving
from cases.liars import different_writes, lying_server
from cases.names import names_and_files
from cases.outages import address_change, clock_steps, outage
from cases.runs import whole_run
from cases.telling import telling
from cases.texts import fates

# The long ones first.
CASES = {"lying server": lying_server, "whole run": whole_run, "journals": journals, "address change": address_change,
         "clock steps": clock_steps, "outage": outage, "fates": fates, "telling": telling,
         "copied folder": copied_folder, "two at once": two_at_once, "restored folder": restored_folder,
         "full disk": full_disk, "different writes": different_writes, "silent links": silent_links,
         "flooding member": flooding_member, "unread terminal": unread_terminal, "names and files": names_and_files,
         "leaving": leaving}
