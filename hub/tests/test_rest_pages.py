"""Pages, links and entity tags of the REST API."""
import pytest

from acts_hub.rest.errors import Fault
from acts_hub.rest.pages import Page, is_known

URL = 'https://hub.example/api/v3/repos/octo/hello/actions/runs'
pytestmark = pytest.mark.quick


def test_sizes_are_those_that_github_documents() -> None:
    assert Page.of({}) == Page(1, 30)
    assert Page.of({'per_page': '100', 'page': '3'}) == Page(3, 100)
    assert Page.of({'per_page': '100000000000000000000000000000000000000'}).size == 100


@pytest.mark.parametrize('text', ['-1', '1.5', 'x', ' 3', '１２', '0x10', '1e3'])
@pytest.mark.parametrize('name', ['page', 'per_page'])
def test_what_is_no_number_is_refused_in_words(name: str, text: str) -> None:
    with pytest.raises(Fault) as caught:
        Page.of({name: text})
    assert caught.value.status == 422 and name in caught.value.message


def test_links_of_the_first_a_middle_and_the_last_page() -> None:
    def rels(page: int) -> dict[str, str]:
        text = Page(page, 20).links(URL, {'branch': 'a b', 'page': str(page), 'per_page': '20'}, 60)
        return {rel: link for link, rel in (part.split('; ') for part in text.split(', '))}

    def link(page: int) -> str:
        return f'<{URL}?branch=a+b&per_page=20&page={page}>'

    assert rels(1) == {'rel="next"': link(2), 'rel="last"': link(3)}
    assert rels(2) == {'rel="prev"': link(1), 'rel="next"': link(3), 'rel="last"': link(3), 'rel="first"': link(1)}
    assert rels(3) == {'rel="prev"': link(2), 'rel="first"': link(1)}


def test_one_page_has_no_links() -> None:
    assert Page(1, 20).links(URL, {}, 20) == ''
    assert Page(1, 20).links(URL, {}, 0) == ''


def test_a_query_in_a_link_can_t_end_it() -> None:
    assert '<' not in Page(1, 1).links(URL, {'branch': '>; rel="next", <https://other.example'},
                                       2).replace(f'<{URL}', '')


def test_cuts() -> None:
    items = list(range(1, 8))
    assert Page(1, 3).newest(items) == [7, 6, 5]
    assert Page(3, 3).newest(items) == [1]
    assert Page(4, 3).newest(items) == []
    assert Page(10 ** 15, 100).newest(items) == []
    assert Page(2, 3).cut(items) == [4, 5, 6]
    assert Page(9, 3).cut(items) == []


def test_known_tags_compare_weakly() -> None:
    assert is_known('W/"a"', 'W/"a"') and is_known('W/"a"',
                                                   '"a"') and is_known('"a"', '"b", W/"a"') and is_known('"a"', '*')
    assert not is_known('"a"', '"b"') and not is_known('"a"', '')
