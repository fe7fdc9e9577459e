"""Reports and pages for people: what was answered, of which bytes, with maps, in one file each.

In come folders with their answers and findings. Out come facts as JSON, and pages that ask no network.

`release_report` and `country_report` collect the facts, `release_page` and `html_page` make pages of them, with
`map.js`, `page.js` and `page.css` of this folder; `finding_views` shows findings and faults alike, `remedies` says
what to do about each kind, `country_changes` what became of a country's parcels by tiles. Nothing is decided here.
"""
