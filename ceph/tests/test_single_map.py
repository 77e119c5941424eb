"""Tests of the verb `map`, on dumps that Ceph's tools printed."""

import copy
import json
import os
import random
import subprocess
import unittest

from broken import change
from case import HAS_PROGRAM, MAPS, PROGRAM, TOOL, Room
from case import written as written_by
from pgpeer_ceph.maps import NONE, Code, local_groups
from pgpeer_ceph.nodes import parsed
from pgpeer_ceph.sets import printed_sets
from pgpeer_ceph.steps import answers


def dump(name, kind):
    return parsed((MAPS / f"{name}.{kind}.json").read_text(), name).value


def written(words):
    return written_by("map", *words)


class Case(Room):
    """A case with a real map that it may change before it is taken over."""

    name = "temps"

    def setUp(self):
        super().setUp()
        self.osdmap, self.crush = copy.deepcopy(dump(self.name, "osdmap")), copy.deepcopy(dump(self.name, "crush"))

    def file(self, name, value):
        path = self.folder / name
        path.write_text(value if isinstance(value, str) else json.dumps(value))
        return str(path)

    def run_tool(self, *words):
        return written([*words, self.file("osdmap.json", self.osdmap), self.file("crush.json", self.crush)])

    def lines(self, *words):
        status, out, _ = self.run_tool(*words)
        self.assertEqual(status, 0)
        return [json.loads(line) for line in out.splitlines()]

    def told(self, *words):
        """What is told of the map alone, which --strict takes for an error."""
        status, _, err = self.run_tool("--alone", *words)
        self.assertEqual(status, 0)
        strict, out, err_of_strict = self.run_tool("--strict", "--alone", *words)
        self.assertEqual((strict, out), (2 if err else 0, "" if err else out))
        self.assertTrue(err_of_strict.startswith(err))
        return err

    def assert_error(self, text, status_and_texts):
        status, out, err = status_and_texts
        self.assertEqual((status, out), (2, ""))
        self.assertTrue(err.splitlines()[-1].startswith("pgpeer-ceph: error: "), err)
        self.assertIn(text, err)


class Lines(Case):
    def test_devices_boot_go_down_and_get_their_weights(self):
        first, second, third = self.lines()
        self.assertEqual([first["epoch"], second["epoch"], third["epoch"]], [1, 2, 3])
        self.assertEqual(first["up"], list(range(24)))
        self.assertEqual(first["weight"], [[1, 45875], [8, 45875], [12, 0], [17, 0]])
        self.assertEqual(second, {"op": "inc", "epoch": 2, "down": [0, 1, 2, 3, 9, 16]})

    def test_pools_have_their_rules_failure_domain(self):
        replicated, erasure = self.lines()[-1]["pools"]
        numbers = [pool["pool"] for pool in self.osdmap["pools"]]
        alike = {"id": numbers[0], "pg_num": 64, "kind": "replicated", "size": 3, "min_size": 2, "leaf": 1}
        coded = {"id": numbers[1], "pg_num": 64, "kind": "erasure", "k": 2, "size": 4, "min_size": 3, "leaf": 0}
        self.assertEqual((replicated, erasure), (alike, coded))

    def test_pg_temp_lists_keep_their_order(self):
        temps = {(pool, pg): osds for pool, pg, osds in self.lines()[-1]["temp"]}
        self.assertEqual(len(temps), len(self.osdmap["pg_temp"]))
        for entry in self.osdmap["pg_temp"]:
            pool, pg = entry["pgid"].split(".")
            self.assertEqual(temps[int(pool), int(pg, 16)], entry["osds"])

    def test_empty_places_of_pg_temp_are_null(self):
        temp = next(entry for entry in self.osdmap["pg_temp"] if len(entry["osds"]) == 4)
        temp["osds"][1] = NONE
        pool, pg = temp["pgid"].split(".")
        lists = {(it[0], it[1]): it[2] for it in self.lines()[-1]["temp"]}
        self.assertEqual(lists[int(pool), int(pg, 16)][1], None)

    def test_an_up_thru_since_the_boot_is_that_of_the_last_epoch(self):
        for osd in self.osdmap["osds"]:
            osd.update(up_from=10, up_thru=12 if osd["osd"] in (0, 5) else 9)
        self.assertEqual(self.lines()[-1]["up_thru"], [[5, 3]])  # 0 is down

    def test_the_tree_keeps_ids_types_and_order(self):
        buckets = {it["id"]: it for it in self.lines()[0]["crush"]}
        for bucket in self.crush["buckets"]:
            ours = buckets[bucket["id"]]
            self.assertEqual((ours["type"], ours["alg"]), (bucket["type_id"], bucket["alg"]))
            self.assertEqual(ours["items"], [item["id"] for item in bucket["items"]])
            if bucket["alg"] == "list":
                self.assertEqual(ours["weights"], [item["weight"] for item in bucket["items"]])

    def test_one_pool_of_several(self):
        number = self.osdmap["pools"][1]["pool"]
        last = self.lines("--pool", str(number))[-1]
        self.assertEqual([pool["id"] for pool in last["pools"]], [number])
        self.assertEqual({temp[0] for temp in last["temp"]}, {number})

    def test_questions_for_each_group(self):
        asked = [line["pg"] for line in self.lines("--ask") if line["op"] == "ask"]
        self.assertEqual(asked, [[pool["pool"], pg] for pool in self.osdmap["pools"] for pg in range(64)])

    def test_a_map_of_list_and_uniform_buckets_is_carried_whole(self):
        self.assertEqual(self.told(), "")

    def test_history_and_reports_are_told_each_time_and_how_they_are_had(self):
        status, out, err = self.run_tool("--strict")
        self.assertEqual((status, out), (2, ""))
        self.assertEqual(len(err.splitlines()), 2)
        self.assertIn("not carried: the map's history, and what members report of groups: pgpeer-ceph fetch", err)
        self.assertEqual(self.run_tool()[0], 0)

    def test_text_before_a_dump_is_passed_over(self):
        text = "marking all OSDs up and in\n" + json.dumps(self.osdmap)
        status, out, _ = written([self.file("osdmap.json", text), self.file("crush.json", self.crush)])
        self.assertEqual((status, out), self.run_tool()[:2])


def recovers(m, length, size, have):
    """Tells whether no chunk is lacking once each local code of lrc was tried, and then the global one."""
    lacking = set(range(size)) - have
    local = [set(range(at, at + length + 1)) for at in range(0, size, length + 1)]
    for chunks, most in [*((it, 1) for it in local), ({slot for slot in range(size) if slot % (length + 1) != length}, m)]:
        if len(lacking & chunks) <= most:
            lacking -= chunks
    return not lacking


class LocalGroups(Case):
    """Pools of the plugin lrc."""

    def profile(self, **keys):
        self.osdmap["erasure_code_profiles"]["ec-2-2"] = {"plugin": "lrc", **keys}

    def test_one_local_group_is_carried_whole(self):
        self.profile(k="2", m="1", l="3")
        self.assertEqual(self.told(), "")
        last = self.lines()[-1]
        keys = [(pool["kind"], pool.get("groups"), "k" in pool) for pool in last["pools"]]
        self.assertEqual(keys, [("replicated", None, False), ("grouped", [[[0, 1, 2, 3], 3]], False)])
        self.assertEqual([line.get("v") for line in self.lines()], [None, None, 2])
        self.assertEqual(list(last)[:3], ["op", "v", "epoch"])

    def test_several_local_groups_are_told(self):
        self.profile(k="4", m="2", l="3")
        self.osdmap["pools"][1]["size"] = 8
        self.osdmap["pg_temp"] = []
        told = self.told()
        self.assertIn("lrc codes, carried as local groups of which each wants all chunks but one, where Ceph may recover, and may "
                      "have gone read-write, with fewer: lrc of profile 'ec-2-2' in pool", told)
        self.assertEqual(self.lines()[-1]["pools"][1]["groups"], [[[0, 1, 2, 3], 3], [[4, 5, 6, 7], 3]])

    def test_layers_by_hand_and_numbers_that_are_no_code_are_carried_as_any_k_shards(self):
        kept = {"k": "-1", "l": "-1", "layers": '[ [ "DDDc", "" ] ]', "m": "-1", "mapping": "DDD_"}  # by Ceph 16.2.15
        for profile, k in (({"mapping": "DD__", "layers": "[]"}, 2), (kept, 3),
                           ({"mapping": "_DDD", "layers": "[]", "k": "2"}, 2),
                           ({"k": "2", "m": "1", "l": "2"}, 2), ({"k": "2", "m": "2", "l": "2"}, 2), ({"k": "3"}, 3)):
            self.profile(**profile)
            self.assertIn("erasure codes that don't read from any k shards, carried as if they did: lrc of", self.told())
            pool = self.lines()[-1]["pools"][1]
            self.assertEqual((pool["kind"], pool["k"]), ("erasure", k), profile)

    def test_numbers_that_no_profile_can_have(self):
        where = "osdmap.json.erasure_code_profiles.ec-2-2"
        for profile, text in (({"k": "two"}, f"{where}.k is no whole number"), ({"k": "2", "m": "1", "l": ""}, f"{where}.l is no whole number"),
                              ({"k": "0"}, f"{where}.k is 0, and the size of"), ({"k": "5", "m": "1", "l": "3"}, f"{where}.k is 5, and the size of"),
                              ({"mapping": "____", "layers": "[]"}, f"{where}.k is 0, and the size of"), ({}, f"{where} has no key 'k'")):
            self.profile(**profile)
            self.assert_error(text, self.run_tool())

    def compared(self, k, m, length):
        """How many sets of chunks are enough for both, for the parts alone and for Ceph alone."""
        size = k + m + (k + m) // length
        code = Code(k, local_groups(k, m, length, size))
        self.assertEqual([slot for slots, _ in code.parts for slot in slots], list(range(size)))
        counts = {(True, True): 0, (True, False): 0, (False, True): 0, (False, False): 0}
        for bits in range(1 << size):
            have = {slot for slot in range(size) if bits >> slot & 1}
            counts[code.are_enough(have), recovers(m, length, size, have)] += 1
        return counts[True, True], counts[True, False], counts[False, True]

    def test_what_is_enough_for_the_parts_is_enough_for_ceph(self):
        for profile in ((1, 1, 2), (2, 1, 3), (3, 1, 4), (2, 2, 2), (4, 2, 3), (2, 2, 4), (4, 4, 4), (6, 3, 3), (6, 2, 4), (8, 2, 5),
                        (8, 4, 6), (10, 2, 6)):
            _, ours_alone, cephs_alone = self.compared(*profile)
            self.assertEqual((ours_alone, cephs_alone == 0), (0, profile[1] == 1), profile)
        self.assertEqual(self.compared(4, 2, 3), (25, 0, 30))

    def test_numbers_of_no_local_groups(self):
        self.assertEqual(local_groups(4, 2, 3, 9), ())
        self.assertEqual(local_groups(4, 2, 4, 8), ())
        self.assertEqual(local_groups(2**30, 2**30, 2**30, 2**31 + 2), ())

    @unittest.skipUnless(HAS_PROGRAM, f"no program {PROGRAM}")
    def test_the_program_takes_the_lines(self):
        self.profile(k="2", m="1", l="3")
        _, out, _ = self.run_tool("--alone")
        run = subprocess.run([PROGRAM, "run"], input=out, capture_output=True, text=True)
        self.assertEqual([json.loads(line).get("ok") for line in run.stdout.splitlines()], ["inc"] * len(out.splitlines()))


class Removed(Case):
    name = "removed"

    def test_a_device_of_the_tree_that_does_not_exist_is_destroyed(self):
        lines = self.lines()
        self.assertEqual([line for line in lines if "gone" in line], [{"op": "inc", "epoch": 3, "gone": [20, 21]}])
        self.assertTrue({20, 21} <= set(lines[1]["down"]))
        self.assertTrue([20, 0] in lines[0]["weight"] and [21, 0] in lines[0]["weight"])
        self.assertIn("don't exist, taken for 0: osd 20-21", self.told())


class Straw2(Case):
    name = "straw2"

    def test_buckets_are_carried_as_such(self):
        first, *others = self.lines("--straw2")
        self.assertEqual((first["v"], {bucket["alg"] for bucket in first["crush"]}), (3, {"straw2"}))
        self.assertFalse(any("v" in line for line in others))
        self.assertEqual(self.told("--straw2"), "")

    def test_weight_sets_are_told(self):
        self.crush["choose_args"] = {"-1": []}
        self.assertIn("choose_args of straw2 buckets, so places differ: -9 'all', -1 'h0'", self.told("--straw2"))
        self.assertIn("groups lie as in Ceph with script --groups FILE", self.told("--straw2"))

    @unittest.skipUnless(HAS_PROGRAM, f"no program {PROGRAM}")
    def test_groups_lie_where_ceph_has_them(self):
        _, out, _ = self.run_tool("--alone", "--ask", "--straw2")
        said = [answer for answer in answers(PROGRAM, out.splitlines()) if answer["ok"] == "ask"]
        ours = {tuple(it["pg"]): (tuple(it["up"]), tuple(it["acting"])) for it in said}
        sets = printed_sets((MAPS / "straw2.groups.txt").read_text(), "")
        self.assertEqual(ours, {group: (where.up, where.acting) for group, where in sets.items()})


class NotCarried(Case):
    def test_straw2_buckets(self):
        self.osdmap, self.crush = dump("straw2", "osdmap"), dump("straw2", "crush")
        cause = "straw2 buckets, carried as list buckets of the same weights, so places differ"
        self.assertIn(f"{cause}: -9 'all', -1 'h0'", self.told())
        self.assertEqual({bucket["alg"] for bucket in self.lines()[0]["crush"]}, {"list"})
        self.assertIn("groups lie as in Ceph with script --groups FILE", self.told())

    def test_device_classes_and_the_tree_of_their_rule(self):
        self.osdmap, self.crush = dump("classes", "osdmap"), dump("classes", "crush")
        self.assertIn("device classes: hdd of osd 0 3 6", self.told())
        root = next(it["id"] for it in self.crush["buckets"] if it["name"] == "all~ssd")
        self.assertEqual(self.lines()[0]["crush"][0]["id"], root)

    def test_several_roots(self):
        host = self.crush["buckets"][0]["id"]
        self.crush["rules"][1]["steps"][0]["item"] = host
        other = self.osdmap["pools"][1]
        cause = "several roots: pools of others than -7 are left out"
        self.assertIn(f"{cause}: pool {other['pool']} 'ec' of rule 1 'rule1', which takes {host}", self.told())
        self.assertEqual(len(self.lines()[-1]["pools"]), 1)
        self.assertEqual(self.lines("--pool", str(other["pool"]))[0]["crush"][0]["id"], host)

    def test_other_tunables(self):
        self.crush["tunables"]["chooseleaf_stable"] = 0
        self.crush["rules"][1]["steps"].insert(0, {"op": "set_choose_tries", "num": 100})
        told = self.told()
        self.assertIn("chooseleaf_stable 0 (for 1)", told)
        self.assertIn("set_choose_tries 100 (for 51) of rule 1 'rule1'", told)

    def test_pg_num_above_the_limit(self):
        self.osdmap["pools"][0].update(pg_num=4096, pg_placement_num=4096)
        self.assertIn(f"pool {self.osdmap['pools'][0]['pool']} 'rep' has 4096", self.told())
        self.assertEqual(self.lines()[-1]["pools"][0]["pg_num"], 1024)

    def test_groups_in_all_above_the_limit(self):
        pool = self.osdmap["pools"].pop(0)
        self.osdmap["pools"] = [{**pool, "pool": number, "pg_num": 1024, "pg_placement_num": 1024} for number in range(1, 19)]
        self.assertIn("pools beyond 16384 groups in all, left out: pool 17 'rep' of 1024, pool 18 'rep' of 1024", self.told())

    def test_pools_and_sizes_above_their_limits(self):
        self.osdmap["pools"][0]["size"] = 17
        self.osdmap["pools"][1]["pool"] = 256
        told = self.told()
        self.assertIn("pools whose size isn't 1 to 16, left out", told)
        self.assertIn("pools above 255, left out: pool 256 'ec'", told)

    def test_upmaps_affinities_and_primary_temp(self):
        group = f"{self.osdmap['pools'][0]['pool']}.1f"
        self.osdmap["pg_upmap_items"] = [{"pgid": group, "mappings": [{"from": 1, "to": 2}]}]
        self.osdmap["primary_temp"] = [{"pgid": group, "osd": 3}]
        self.osdmap["osds"][4]["primary_affinity"] = 0.5
        told = self.told()
        for text in (f"upmaps: {group}", f"primary_temp: {group}", "primary affinities: osd.4 has 0.5"):
            self.assertIn(text, told)

    def test_what_later_versions_have(self):
        """Rules without sizes, primaries that the balancer chose, pools that stretch, and steps of several devices a host."""
        group = f"{self.osdmap['pools'][0]['pool']}.1"
        self.osdmap["pg_upmap_primaries"] = [{"pgid": group, "primary_osd": 2}]
        self.osdmap["pools"][0]["peering_crush_bucket_count"] = 2
        for rule in self.crush["rules"]:
            del rule["min_size"], rule["max_size"]
        told = self.told()
        self.assertIn(f"upmaps: {group}\n", told)
        self.assertIn(f"stretch mode: pool {self.osdmap['pools'][0]['pool']} 'rep' wants members in 2 buckets of a type\n", told)
        self.assertNotIn("don't serve the pool's size", told)
        self.crush["rules"][0]["steps"][1:2] = [{"op": "choose_msr", "num": 0, "type": "host"}, {"op": "choose_msr", "num": 1, "type": "osd"}]
        self.assertIn("pools whose rule takes or chooses nothing, left out", self.told())

    def test_a_rule_of_two_choices_and_one_of_the_other_mode(self):
        steps = self.crush["rules"][0]["steps"]
        steps.insert(1, {"op": "choose_firstn", "num": 2, "type": "rack"})
        self.osdmap["pools"][1]["crush_rule"] = 0
        told = self.told()
        self.assertIn("rule 0 'rule0' with 1 takes and 2 choices", told)
        self.assertIn("rules of the other mode, so places differ: chooseleaf_firstn of rule 0 'rule0' in pool", told)

    def test_a_bucket_of_too_many_items(self):
        bucket = self.crush["buckets"][0]
        bucket["items"] = [{"id": osd, "weight": 1, "pos": osd} for osd in range(100, 400)]
        self.assertIn("has 300 items, more than 256", self.told())
        self.assertTrue(all("crush" not in line for line in self.lines()))

    def test_no_crush_dump(self):
        status, out, err = written([self.file("osdmap.json", self.osdmap)])
        self.assertEqual(status, 0)
        self.assertIn("no CRUSH dump was given", err)
        self.assertNotIn('"crush"', out)


class BadInput(Case):
    def test_a_file_that_is_not_there(self):
        self.assert_error("nowhere.json: No such file", written([str(self.folder / "nowhere.json")]))

    def test_no_json(self):
        self.assert_error("osdmap.json is not JSON", written([self.file("osdmap.json", '{"epoch":')]))
        self.assert_error("osdmap.json is not JSON", written([self.file("osdmap.json", "epoch 12\nfsid 0\n")]))

    def test_a_key_that_is_missing(self):
        del self.osdmap["pools"][1]["size"]
        self.assert_error("osdmap.json.pools[1] has no key 'size'", self.run_tool())
        self.osdmap, self.crush = dump("temps", "osdmap"), {}
        self.assert_error("crush.json has no key 'types'", self.run_tool())

    def test_values_of_another_shape(self):
        self.osdmap["osds"] = 3
        self.assert_error("osdmap.json.osds is no list", self.run_tool())

    def test_an_unknown_pool(self):
        self.assert_error("osdmap.json has no pool 99", self.run_tool("--pool", "99"))

    def test_a_rule_and_a_profile_that_are_not_there(self):
        self.osdmap["pools"][0]["crush_rule"] = 7
        self.assert_error("has the rule 7, which CRUSH doesn't have", self.run_tool())
        self.osdmap["erasure_code_profiles"] = {}
        self.assert_error("osdmap.json.erasure_code_profiles has no key 'ec-2-2'", self.run_tool())

    def test_numbers_that_no_map_has(self):
        for key, value in (("weight", float("nan")), ("weight", 1e300), ("weight", -1), ("primary_affinity", float("inf")), ("up_from", -3), ("up_thru", 2**40)):
            self.osdmap = copy.deepcopy(dump("temps", "osdmap"))
            self.osdmap["osds"][2][key] = value
            self.assert_error(f"osdmap.json.osds[2].{key} ", self.run_tool())
        self.osdmap = copy.deepcopy(dump("temps", "osdmap"))
        self.osdmap["osds"].append(self.osdmap["osds"][0])
        self.assert_error("which is twice in the list", self.run_tool())

    def test_random_changes_end_with_a_script_or_one_line(self):
        rng = random.Random(11)
        for _ in range(150):
            self.osdmap, self.crush = copy.deepcopy(dump(self.name, "osdmap")), copy.deepcopy(dump(self.name, "crush"))
            for _ in range(rng.randint(1, 3)):
                change(rng, rng.choice((self.osdmap, self.crush)))
            status, out, err = self.run_tool("--ask")
            self.assertIn(status, (0, 2), err)
            if status == 2:
                self.assertEqual((out, err.count("error: ")), ("", 1), err)

    def test_swapped_files(self):
        osdmap, crush = self.file("a.json", self.osdmap), self.file("b.json", self.crush)
        self.assert_error("b.json has no key 'osds'", written([crush, osdmap]))

    def test_standard_input_a_full_disk_and_a_closed_pipe(self):
        crush = self.file("crush.json", self.crush)
        words, text = [*TOOL, "map", "--alone", "-", crush], json.dumps(self.osdmap)
        run = subprocess.run(words, input=text, capture_output=True, text=True)
        self.assertEqual((run.returncode, run.stdout, run.stderr), self.run_tool("--alone"))
        with open("/dev/full", "w") as full:
            run = subprocess.run(words, input=text, stdout=full, stderr=subprocess.PIPE, text=True)
        self.assertEqual((run.returncode, run.stderr), (2, "pgpeer-ceph: error: writing: No space left on device\n"))
        end, begin = os.pipe()
        os.close(end)
        run = subprocess.run(words, input=text, stdout=begin, stderr=subprocess.PIPE, text=True)
        os.close(begin)
        self.assertEqual((run.returncode, run.stderr), (2, "pgpeer-ceph: error: writing: Broken pipe\n"))

    def test_output_to_a_pipe_and_through_a_link(self):
        words = ["--alone", self.file("osdmap.json", self.osdmap), self.file("crush.json", self.crush)]
        whole = written(words)[1]
        pipe, link, target = self.folder / "pipe", self.folder / "link", self.folder / "target"
        os.mkfifo(pipe)
        with subprocess.Popen(["cat", pipe], stdout=subprocess.PIPE, text=True) as reader:
            self.assertEqual(written([*words, "--output", str(pipe)])[:2], (0, ""))
            self.assertEqual(reader.communicate()[0], whole)
        self.assertTrue(pipe.is_fifo())
        link.symlink_to(target)
        self.assertEqual(written([*words, "--output", str(link)])[:2], (0, ""))
        self.assertTrue(link.is_symlink())
        self.assertEqual(target.read_text(), whole)

    def test_a_command_line_without_a_file(self):
        status, out, err = written([])
        self.assertEqual((status, out), (2, ""))
        self.assertIn("pgpeer-ceph map: error: the following arguments are required: OSDMAP.json", err)


if __name__ == "__main__":
    unittest.main()
