"""Files of two VRPs, 192.0.2.0/23-24 AS64496 and 2001:db8::/32-48 AS64497, in the nine forms of docs/RECIPES.md that
rpki-client, Routinator and FORT write, and in that of RIPE's archive."""

FORMS = {
    "rpki-client.csv": """ASN,IP Prefix,Max Length,Trust Anchor,Expires
AS64496,192.0.2.0/23,24,ripe,1732600000
AS64497,2001:db8::/32,48,arin,4102444800
""",
    "rpki-client.json": """{
\t"metadata": { "buildmachine": "x", "buildtime": "2026-11-30T10:00:00Z", "elapsedtime": 60, "vrps": 2 },

\t"roas": [
\t\t{ "asn": 64496, "prefix": "192.0.2.0/23", "maxLength": 24, "ta": "ripe", "expires": 1732600000 },
\t\t{ "asn": 64497, "prefix": "2001:db8::/32", "maxLength": 48, "ta": "arin", "expires": 4102444800 }
\t],

\t"bgpsec_keys": [],
\t"aspas": []
}
""",
    "routinator.csv": """ASN,IP Prefix,Max Length,Trust Anchor
AS64496,192.0.2.0/23,24,ripe
AS64497,2001:db8::/32,48,arin
""",
    "routinator.csvcompat": """"ASN","IP Prefix","Max Length","Trust Anchor"
"64496","192.0.2.0/23","24","ripe"
"64497","2001:db8::/32","48","arin"
""",
    "routinator.csvext": """URI,ASN,IP Prefix,Max Length,Not Before,Not After
rsync://rpki.example/a.roa,AS64496,192.0.2.0/23,24,2026-11-01 00:00:00,2027-11-01 00:00:00
N/A,AS64497,2001:db8::/32,48,N/A,N/A
""",
    "routinator.json": """{
  "metadata": {
    "generated": 1764500000,
    "generatedTime": "2026-11-30T10:00:00Z"
  },
  "roas": [
    { "asn": "AS64496", "prefix": "192.0.2.0/23", "maxLength": 24, "ta": "ripe" },
    { "asn": "AS64497", "prefix": "2001:db8::/32", "maxLength": 48, "ta": "arin" }
  ],
  "routerKeys": [
  ],
  "aspas": [
  ]
}
""",
    "routinator.jsonext": """{
  "roas": [
    { "asn": "AS64496", "prefix": "192.0.2.0/23", "maxLength": 24, "source": [ { "type": "roa", "tal": "ripe",
      "uri": "rsync://rpki.example/a.roa", "validity": { "notBefore": "2026-11-01T00:00:00Z" } } ] },
    { "asn": "AS64497", "prefix": "2001:db8::/32", "maxLength": 48, "source": [ { "type": "exception" } ] }
  ]
}
""",
    "fort.csv": """ASN,Prefix,Max prefix length
AS64496,192.0.2.0/23,24
AS64497,2001:db8::/32,48
""",
    "fort.json": """{
\t"roas": [
\t\t{ "asn": "AS64496", "prefix": "192.0.2.0/23", "maxLength": 24 },
\t\t{ "asn": "AS64497", "prefix": "2001:db8::/32", "maxLength": 48 }
\t]
}
""",
    "roas.csv": """URI,ASN,IP Prefix,Max Length,Not Before,Not After
rsync://rpki.example/a.roa,AS64496,192.0.2.0/23,24,2026-11-01 00:00:00,2027-11-01 00:00:00
rsync://rpki.example/b.roa,AS64497,2001:db8::/32,48,2026-11-01 00:00:00,2027-11-01 00:00:00
""",
}
